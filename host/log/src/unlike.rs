//! Where the archive and the model part.

use chuldariin::raw;
use chuldariin_model::{Reply, State};

/// The parts in which two replies differ. The fault must be one that may be told.
pub fn unlike(archive: &raw::Reply, model: &Reply) -> Vec<&'static str> {
    let parts = [
        ("refusal", archive.refusal == model.refusal),
        ("letter", archive.letter == model.letter),
        ("digit", archive.digit == model.digit),
        ("wave", archive.wave == model.wave),
        ("contactor", archive.closed == model.closed),
        ("fault", model.may_tell(archive.fault.into())),
        ("closings", archive.closings == model.closings),
        ("lines", archive.lines.each() == model.lines),
    ];
    let unlike = parts.iter().filter(|part| !part.1);
    unlike.map(|part| part.0).collect()
}

/// The parts in which two controllers differ. An order that the model leaves open may be any.
pub fn unlike_kept(archive: &State, model: &State) -> Vec<&'static str> {
    let archive = &State {
        order: archive.order.filter(|_| model.order.is_some()),
        ..*archive
    };
    if archive == model {
        return Vec::new();
    }
    let parts = [
        ("kept rated", archive.rated == model.rated),
        ("kept pause", archive.pause == model.pause),
        ("kept ventilation", archive.ventilation == model.ventilation),
        ("kept mark", archive.digital == model.digital),
        ("kept limit", archive.limit == model.limit),
        ("kept grant", archive.grant == model.grant),
        ("kept lines", archive.lines == model.lines),
        ("kept wave", archive.wave == model.wave),
        ("kept contactor", archive.closed == model.closed),
        ("kept settled state", archive.settled == model.settled),
        ("kept faults", archive.faults == model.faults),
        ("kept order", archive.order == model.order),
        ("kept last time", archive.last == model.last),
        ("kept sound sample", archive.sound == model.sound),
        ("kept opening", archive.opening == model.opening),
        ("kept over-run", archive.overrun == model.overrun),
        ("kept stop", archive.stop == model.stop),
        ("kept previous sample", archive.previous == model.previous),
        ("kept closings", archive.closings == model.closings),
        ("controller", false),
    ];
    let unlike = parts.iter().filter(|part| !part.1);
    unlike.map(|part| part.0).collect()
}

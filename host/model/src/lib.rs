//! What the controller of a charging post should do, as plain Rust.
//!
//! It was made from document 01, the paper that states the rules, and requests a
//! to g of document 02, without sight of the controller that it is held against,
//! call by call. By those requests pause 0 means 10,000, a measure has a current
//! for every line, a lowered duty restarts a running over-run, the duty table is
//! its ranges' formula, a digital post agrees its current over the link, the fault
//! told is the one latched first, and a limit above 80,000 has a refusal number of
//! its own.
//! Given beside the papers were the interface with its fields `digital` and
//! `grant`, readings 1, 3, 5, 27 and 28 below, and the first sentence of 18. For
//! request f it was suggested that the state keeps the order and that an altered
//! controller may tell any latched fault. The model is slow and obvious on purpose.
//!
//! | File | What it holds |
//! |---|---|
//! | `window` | window to high and low level |
//! | `pilot` | bands and the verdict on a sample |
//! | `duty` | duty to current and back |
//! | `order` | the order in which faults were latched |
//! | `state` | what is kept between calls |
//! | `table` | the table of refusals |
//! | `steps` | steps 1 to 5 of an accepted call |
//! | `call` | begin, the seven other calls, the reply |
//!
//! Units: levels in mV, currents in mA, times in ms, duty in tenths of a percent.
//!
//! # Readings
//!
//! Where the papers can be read in more than one way, the model reads them so:
//!
//! Table of refusals
//! 1. A wave in range is 0, 100 to 960 or 1000 in a plain post and 0, 50 or 1000
//!    in a digital one; anything else is refusal 1.
//! 2. A stored pause in range is 1,000 to 60,000. A stored 0 is refusal 1, as
//!    only begin's argument may be 0. The pause in force is the stored one.
//! 3. The stored times are last sound sample, last opening, start of over-run
//!    and start of stop. An absent one is no time; one equal to the last
//!    accepted time is in order.
//! 4. A last accepted time above the largest time is no refusal 1 of itself:
//!    every call on it is refused 3 or 2.
//! 5. 1,000,000,001 closings are in range, and the call may still add one.
//! 6. Refusal 1 looks at what document 01's table names and at the grant (30), and
//!    at nothing else. Kept lines above 200,000, a contradictory verdict of the
//!    previous sample, a driven wave under a latched fault, settled A with a grant,
//!    a digital post closed under 50 without one and the like are taken as they
//!    are.
//! 7. Begin knows only 3 and 1, in that order. Neither hangs on its mark.
//!
//! Samples
//! 8. A sample without a band, or in another band than its partner, leaves the
//!    settled state as it was. It still becomes the previous sample.
//! 9. A sample's band is that of its high level, whatever its low level is.
//!
//! Steps
//! 10. Step 1 leaves the over-run as it is at a measure with the contactor open
//!     or the wave steady. The wave is the one commanded before the call.
//! 11. Fault 2 asks only for the age of the over-run, in a call of any kind and
//!     with the contactor open as well.
//! 12. Faults 1 and 2 latch whenever their condition holds, also if latched
//!     already (only in an altered controller); that too unsettles and forgets.
//! 13. Forgetting counts even if there was nothing to forget: the sample of
//!     that call is then not kept either.
//! 14. After a latch forgot the previous sample, step 4 still has the pair as
//!     it was before the call; step 5 has no previous sample. (No closing hangs
//!     on this, since the wave is 0 then.)
//! 15. In step 3 a driven wave ends the stop with the contactor open as well
//!     (only in an altered controller). Wave 0 leaves the stop to step 4.
//! 16. Clear drops the faults, and the settled state stays. Nothing else is clear's
//!     own doing; with A settled its call sets the grant to 0, as every call does.
//! 17. The last sound sample is kept in step 1 and is never forgotten.
//! 18. Step 1 keeps the lines of every accepted measure, also with the contactor
//!     open or the wave steady. Nothing but a measure or a begin changes them:
//!     no opening, latch or clear sets them back.
//! 19. Over-run is judged in a measure call alone, on that call's own lines. Kept
//!     lines are not judged again when the wave changes or the contactor closes.
//! 20. The old measure puts lines 2 and 3 to 0, whatever they were.
//! 21. Step 3 lowers a duty if the wave commanded before the call and the one it
//!     commands are both driven and the latter is less. A lower limit with the
//!     same duty lowers nothing. Steady +12 V is no driven duty, though its
//!     number is the greatest: a step from or to a steady wave restarts nothing.
//! 22. A lowered duty restarts the over-run in a call of any kind, and with the
//!     contactor open as well. (In a list only a limit call with the contactor
//!     closed comes to it.)
//! 23. Step 3 asks whether an over-run runs. One that a measure ended in step 1
//!     is not restarted; one that it started there is, at the time it has. How
//!     far over the van is, or was, is not asked.
//! 24. The restart is step 3's, and an opening in step 4 of the same call ends the
//!     over-run. (The outcome's flag `restarted` is true all the same: it tells of
//!     step 3. Nothing else hangs on this.)
//! 25. A restarted over-run began at its restart: fault 2 counts from there, and
//!     the earlier start is not kept.
//!
//! Reply
//! 26. Letter U, E or F gives digit 0, whatever the wave is.
//! 27. The lines are in the reply to every call, as kept after it.
//!
//! Digital posts
//! 28. Wherever a rule or the digit asks for a driven wave, that is 50 or 100 to
//!     960 in a digital post, and 100 to 960 alone in a plain one. (So beside
//!     refusal 1 a digital post lent with 533 tells digit 2, a plain one with 50
//!     digit 1. That 100 to 960 is driven in a digital post too was given: the
//!     papers' words also bear that 50 alone is.)
//! 29. What request e says of closing, wave and over-run is said of digital posts
//!     alone, as plain ones behave as before: in a plain post none of these three
//!     looks at the grant.
//! 30. Two further rules name no post either, and no reply in a plain post's list
//!     hangs on them. The model takes them for every post: refusal 1 for a lent
//!     grant above 80,000, and settled A setting the grant to 0. (In a plain post
//!     only an altered controller has a grant.)
//! 31. A link call's order is 3, 2, 1, 12, 11. A plain post refuses every grant
//!     by 12, also one above 80,000.
//! 32. Step 1 stores the grant of every accepted link call, whatever the contactor,
//!     wave, faults and settled state. Nothing but begin, a link call and settled
//!     A changes it: no opening, latch, clear or limit sets it back.
//! 33. Settled A is the settled state that is kept, not the letter: it counts under
//!     a latched fault as well. A stays settled until two samples settle another
//!     state, or a latch or a fault call for a fault already latched unsettles it.
//!     Every link call before that leaves 0.
//! 34. It is asked once, between steps 1 and 2. The sample that settles A sets the
//!     grant to 0 even if a latch of that call unsettles A, and a fault call finds
//!     A still settled, as its unsettling is step 2's.
//! 35. A measure is judged in step 1, so before settled A sets the grant to 0. (They
//!     meet only in an altered controller.)
//! 36. This one is about the outcome's flag `grant_reset` alone, which is true if
//!     settled A has set a grant above 0 to 0. It is false for a link call with 0,
//!     whatever was stored before: the event has replaced that. (Only an altered
//!     controller has A settled and a grant stored.)
//! 37. Step 3 asks for the contactor as it is before steps 4 and 5, and for the
//!     grant as it is after the rule about settled A. A call that opens under a
//!     grant below 6,000, for whichever cause but a fault, still commands 1000.
//!     The next one finds it open and commands 50 again, whatever the grant, if
//!     plain rules give a duty.
//! 38. There is one stop, with one start. A second reason for wave 1000, a limit
//!     or a grant, starts none anew, and the stop ends when the last reason does
//!     or at the opening.
//! 39. Step 5 asks for the grant as it is after the rule about settled A. A link
//!     call closes nothing; the next sample may, with a previous one from before
//!     the link call.
//! 40. The least of grant, rated and limit takes the place of the duty's reading in
//!     step 1, as they are kept before the measure. All else of the over-run stays:
//!     it asks for a closed contactor and a driven wave, and a measure alone
//!     judges. A changed grant or limit ends none and starts none of itself.
//! 41. A digital post commands one driven duty, and refusal 1 bars the others, so
//!     none of its accepted calls lowers a driven duty to another: a lower grant or
//!     limit restarts no over-run.
//! 42. Mark and grant are not in the reply.
//!
//! The order of faults
//! 43. The order is that of the latches, call after call, also where calls have one
//!     time. Within a call it is a fault call's own fault, then 1, then 2; the steps
//!     latch them in that order as well.
//! 44. "It is 1" orders 1 and 2 with each other. A fault latched before that call
//!     would stay before both. (In a list there is none: with a fault latched the
//!     wave is 0, and neither 1 nor 2 comes before a clear. So 1 has the first place
//!     or none, and 2 the first, the second or none.)
//! 45. A fault is told again if a fault call brings it while it is latched. Its
//!     place stays, and the call unsettles and forgets all the same.
//! 46. Clear empties the order in step 1. A 2 that the same call latches in step 2
//!     is the first then. A fault that comes back after a clear takes a new place,
//!     behind those latched since the clear.
//! 47. Only begin, a latch and a clear change the order. A clear drops all faults at
//!     once and nothing drops one of them, so the first among those still latched is
//!     the first latched since begin or the last clear.
//! 48. A refused call changes no order, so a refused fault call gives no place and a
//!     refused clear empties nothing. Beside every refusal that is not alone stands
//!     the first of the lent controller.
//! 49. Nothing but the fault told hangs on the order. The order itself is not in the
//!     reply.
//! 50. An altered controller has no known order, as the papers do not say how it is
//!     kept: any of its latched faults may be told, and 0 only if it has none. An
//!     altered order is no refusal 1, which looks at nothing of it (6).
//! 51. That stays so in all later calls, after a clear as well. A list may happen to
//!     lead to such a controller; the model does not ask, and leaves its fault open.
//! 52. A state whose order has other faults than the latched ones is altered, and its
//!     order counts as not known.
//!
//! Limit and measure told separately
//! 53. A limit call's order is 3, 2, 1, 13, in a plain post and in a digital one:
//!     13 stands where its 7 stood. No other number can meet it, as 4 to 8, 11 and 12
//!     are of other calls.
//! 54. 13 looks at the limit that the call brings. A lent limit above 80,000 is
//!     refusal 1 as before, also where the limit call would replace it.
//! 55. The ends stay: 80,000 is accepted, also above the rated current, and stored as
//!     it came.

#![forbid(unsafe_code)]

mod call;
mod duty;
mod order;
mod pilot;
mod state;
mod steps;
mod table;
mod window;

pub use call::{begin, Begin, Outcome, Reply};
pub use duty::{driven, duty_for, reading, Reading, LEAST_CURRENT};
pub use order::Order;
pub use pilot::{band, in_low_band, verdict, Band, Verdict};
pub use state::{Event, State};
pub use steps::{Conditions, OVERRUN_AGE, SOUND_AGE, STOP_AGE};
pub use table::refusal_of_call;
pub use window::{levels, Evaluated, ENOUGH, LONGEST, NEAR, READING_END, SHORTEST};

//! Errors that sound right for a while, each one switch.

/// Which error the codec, the listing, a step, the desk or a lamp makes on purpose.
#[derive(Clone, Copy, Debug, PartialEq, Eq, Default)]
pub enum Wrong {
    /// The right codec.
    #[default]
    None,
    /// FILTEZ adds its six terms without stopping and stops once at the end.
    FilterStopsOnce,
    /// FILTEZ adds its terms from the newest to the oldest.
    FilterOtherOrder,
    /// XL and XH are not limited.
    TransmitUnlimited,
    /// The six-bit difference is fed to the low predictor at both ends.
    SixBitLoop,
    /// The reconstructed signal is limited to 15 bits inside the loop.
    LimitInLoop,
    /// Products are rounded toward zero.
    RoundTowardZero,
    /// The size of a negative difference is found by negating it.
    NegatedSize,
    /// Size 0 is interval 1, whatever levels coincide there.
    IntervalOne,
    /// The two phases of each mirror filter are exchanged.
    PhasesExchanged,
    /// The decoder forgets its past pairs when the mode changes between calls.
    ForgetPairs,
    /// The receive filter's output wraps to 16 bits instead of being limited.
    ReceiveWraps,
    /// The heard signals go into the receive filter unlimited.
    HeardUnlimited,
    /// A size exactly on a decision level stays in the interval below.
    LevelStaysBelow,
    /// FILTEP doubles the reconstructed signal without stopping.
    DoubleNotStopped,
    /// UPPOL2 doubles AL1 twice without stopping.
    PoleNotStopped,
    /// UPPOL1 limits the first pole by the second pole before its update.
    PoleLimitLate,
    /// The loop's difference for the upper bits 0000 is that of 0001.
    NeverSentLoop,
    /// The listing decodes all blocks as one run.
    OneRun,
    /// A take begins in the listing only at a block numbered 0.
    OnlyBlockZero,
    /// A take begins in the listing only at another take number.
    OnlyOtherTake,
    /// A take begins in the listing also where block numbers do not follow.
    JumpBegins,
    /// The listing resets the decoder after the first block of a take.
    ResetLate,
    /// The listing resets the two bands and keeps the past pairs.
    PairsKept,
    /// The low signals stand where the high ones belong, between both steps.
    SignalsExchanged,
    /// The first step gives its signals to the receive filter too.
    HearMovesPairs,
    /// The second step resets the two bands.
    JoinForgetsBands,
    /// The place of a bad pair of signals is counted in samples.
    PlaceInSamples,
    /// The first bad low signal goes before a bad high one of an earlier pair.
    LowLookedFirst,
    /// The second step joins the pairs before a bad one, and then refuses.
    JoinedUntilBad,
    /// A port of the desk hears itself too.
    OwnLeftIn,
    /// The desk limits the sum of all ports, and then takes a port's own away.
    TotalLimited,
    /// The desk sums over seven ports, also where there are eight.
    EighthLeftOut,
    /// The desk codes its sums unlimited.
    SumsUnlimited,
    /// The desk decodes each port in the mode of the next.
    NeighboursMode,
    /// The desk decodes all ports in the mode of the first.
    FirstMode,
    /// The first two ports of the desk exchange their coders at every tick.
    CodersExchanged,
    /// The lamp also counts values at the ends of the range.
    EndsCounted,
    /// The lamp counts on from call to call.
    CountsKept,
    /// The lamp does not count high signals.
    HighUncounted,
    /// The lamp counts low signals twice.
    LowTwice,
    /// The lamp counts a pair once, also where both its values were limited.
    PairsOnce,
    /// The first step's lamp counts RLT of the loop in the place of YL.
    LoopCounted,
    /// The lamp of decoding in one counts heard signals beside the samples.
    HeardCounted,
}

/// The errors of the codec.
pub const CODEC: [Wrong; 17] = [
    Wrong::FilterStopsOnce,
    Wrong::FilterOtherOrder,
    Wrong::TransmitUnlimited,
    Wrong::SixBitLoop,
    Wrong::LimitInLoop,
    Wrong::RoundTowardZero,
    Wrong::NegatedSize,
    Wrong::IntervalOne,
    Wrong::PhasesExchanged,
    Wrong::ForgetPairs,
    Wrong::ReceiveWraps,
    Wrong::HeardUnlimited,
    Wrong::LevelStaysBelow,
    Wrong::DoubleNotStopped,
    Wrong::PoleNotStopped,
    Wrong::PoleLimitLate,
    Wrong::NeverSentLoop,
];

/// The errors of the listing, over the right codec.
pub const LISTING: [Wrong; 6] = [
    Wrong::OneRun,
    Wrong::OnlyBlockZero,
    Wrong::OnlyOtherTake,
    Wrong::JumpBegins,
    Wrong::ResetLate,
    Wrong::PairsKept,
];

/// The errors of the two steps, which decoding in one does not make.
pub const STEPS: [Wrong; 6] = [
    Wrong::SignalsExchanged,
    Wrong::HearMovesPairs,
    Wrong::JoinForgetsBands,
    Wrong::PlaceInSamples,
    Wrong::LowLookedFirst,
    Wrong::JoinedUntilBad,
];

/// The errors of the desk, over the right codec.
pub const DESK: [Wrong; 7] = [
    Wrong::OwnLeftIn,
    Wrong::TotalLimited,
    Wrong::EighthLeftOut,
    Wrong::SumsUnlimited,
    Wrong::NeighboursMode,
    Wrong::FirstMode,
    Wrong::CodersExchanged,
];

/// The errors of the lamp, over the right codec, listing, steps and desk.
pub const LAMP: [Wrong; 7] = [
    Wrong::EndsCounted,
    Wrong::CountsKept,
    Wrong::HighUncounted,
    Wrong::LowTwice,
    Wrong::PairsOnce,
    Wrong::LoopCounted,
    Wrong::HeardCounted,
];

/// The error of that name, as it is spelt above.
pub fn by_name(name: &str) -> Option<Wrong> {
    let errors = CODEC.into_iter().chain(LISTING).chain(STEPS).chain(DESK).chain(LAMP);
    errors.chain([Wrong::None]).find(|wrong| format!("{wrong:?}") == name)
}

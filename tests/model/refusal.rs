//! Why a call is sent back.

/// In the order of the scope's table: the first is number 1. Number 9, a load while a plan waits, went with request L5.
#[derive(Clone, Copy, Debug, PartialEq, Eq)]
#[repr(u8)]
pub enum Refusal {
    PortsOutOfRange = 1,
    FrameOutOfRange,
    ListLength,
    RowAboveFrame,
    ColumnAboveFrame,
    DepthOutOfRange,
    StoreLength,
    OtherPortsOrFrame,
    NoSuchPort = 10,
    QueueFull,
    BrokenState,
    ThirdCell,
    MarkOrVersion,
    FileLength,
    NotPlanText,
    RecordLength,
}

/// The number of a call's outcome: 0 is accepted.
pub fn number<T>(outcome: &Result<T, Refusal>) -> u32 {
    match outcome {
        Ok(_) => 0,
        Err(refusal) => *refusal as u32,
    }
}

/// Refuses if the condition holds.
pub fn refuse_if(condition: bool, refusal: Refusal) -> Result<(), Refusal> {
    if condition {
        Err(refusal)
    } else {
        Ok(())
    }
}

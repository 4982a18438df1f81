//! What is lent for writing, as it is before a call.

use super::Call;

impl Call {
    /// The slice lent for writing, as it is before.
    pub fn lent_bytes(&self) -> &[u8] {
        match self {
            Call::Prepare { marks, .. } | Call::PrepareFast { marks, .. } => marks,
            Call::Run { released, .. } => released,
            Call::Join { out, .. } => out,
            Call::WaveWrite { text, .. } => text,
            Call::WaveRead { events, .. } => events,
            Call::Clean { cleaned, .. } => cleaned,
            Call::TextRead { file, .. } => file,
            Call::TextWrite { text, .. } => text,
            _ => &[],
        }
    }

    /// The list lent for writing, as it is before.
    pub fn lent_list(&self) -> &[u8] {
        match self {
            Call::Clean { struck, .. } => struck,
            _ => &[],
        }
    }

    /// The slice for reasons, as it is before.
    pub fn lent_reasons(&self) -> &[u64] {
        match self {
            Call::WhyRun { reasons, .. } => reasons,
            _ => &[],
        }
    }

    /// The totals lent for writing, as they are before.
    pub fn lent_totals(&self) -> &[u32] {
        match self {
            Call::MeterNew { totals, .. } | Call::MeterOutput { totals, .. } => totals,
            _ => &[],
        }
    }

    /// The state, the index, the list or the station lent for writing, as it
    /// is before.
    pub fn lent_state(&self) -> &[u16] {
        match self {
            Call::Output { state, .. }
            | Call::Run { state, .. }
            | Call::WhyRun { state, .. }
            | Call::OutputIndexed { state, .. } => state,
            Call::Index { index, .. } => index,
            Call::BaysNew { states } | Call::BayOutput { states, .. } => states,
            Call::MeterNew { station, .. } | Call::MeterOutput { station, .. } => station,
            _ => &[],
        }
    }
}

//! Debugging.

use crate::access::sealed::Inside;
use crate::ffi::{self, NcsTrace};
use crate::{At, CodeSpan, Memory, Sandbox, Untrusted};
use std::mem::MaybeUninit;

/// What the code of a box was doing, for whoever looks for a mistake in it. The code can forge all of this.
#[derive(Clone, Debug)]
pub struct Trace {
    /// EAX, ECX, EDX, EBX, ESP, EBP, ESI and EDI.
    pub registers: [Untrusted<u32>; 8],
    /// Whether ESP has gone down beyond the memory: there was no room for what was to be put there.
    pub is_full: bool,
    /// The instructions by which the file's code came there, the innermost first, at most 16. There may be gaps, and calls that are over.
    pub calls: Vec<At>,
}

/// Where a box is in the process, for debuggers and profilers. Code in a box isn't to learn it.
#[derive(Clone, Copy, Debug, PartialEq, Eq)]
pub struct Linear {
    /// The linear address of address 0 of its code.
    pub code: u32,
    /// That of address 0 of its data.
    pub data: u32,
    /// The file's code, by its own addresses.
    pub file: CodeSpan,
}

impl<M: Memory> Sandbox<M> {
    /// `ncs_trace`: what the box was doing when a call left it dead, or `None` if it isn't dead, or the end has no place in the code.
    pub fn trace(&self) -> Option<Trace> {
        let mut to = MaybeUninit::<NcsTrace>::uninit();
        // SAFETY: "One thread", and the pointer leads to room for a trace.
        let told = unsafe { ffi::ncs_trace(self.shared().raw(), to.as_mut_ptr()) };
        // SAFETY: nc_sandbox.h: if it returns 1, it has written the trace.
        let trace = (told != 0).then(|| unsafe { to.assume_init() })?;
        let calls = trace.calls.iter().take(trace.count as usize).map(|call| At::new(call.at)).collect();
        Some(Trace { registers: trace.reg.map(Untrusted::new), is_full: trace.is_full != 0, calls })
    }

    /// `ncs_linear`: where the box is in the process.
    pub fn linear(&self) -> Linear {
        // SAFETY: the box is there as long as this value.
        let linear = unsafe { ffi::ncs_linear(self.shared().raw()) };
        let file = CodeSpan { from: At::new(linear.file.from.at), len: linear.file.len };
        Linear { code: linear.code, data: linear.data, file }
    }
}

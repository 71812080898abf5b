//! Data that comes in pieces, and what the calls give and leave: the boundary page, "Data in pieces".
//!
//! A run's bytes are each side's own, so that what one side left in a run cannot be given to the other. What is compared is
//! a [`Script`], played from its beginning by each side: every answer, state and output, and whether a run was left alone.

/// Both tables as they are lent.
#[derive(Clone, Debug, PartialEq, Eq)]
pub struct Tables {
    pub form: u8,
    pub keys: Vec<u8>,
    pub md5: Vec<u8>,
}

/// The calls of one side.
pub trait Pieces {
    /// A run's buffer.
    type Run: Clone + PartialEq;

    /// A buffer in which no header call has left anything.
    fn blank(&self) -> Self::Run;

    /// This buffer with another length.
    fn of_other_length(&self, run: &Self::Run) -> Self::Run;

    #[allow(clippy::too_many_arguments)] // the boundary's own arguments
    fn judge_header(
        &self,
        tables: &Tables,
        source: &[u8],
        destination: &[u8],
        header: &[u8],
        announced: u64,
        state: &[u8],
        run: &mut Self::Run,
    ) -> u64;
    fn judge_part(&self, data: &[u8], run: &mut Self::Run) -> u64;
    /// It takes the run for writing so that it can be seen that it is only read.
    fn judge_end(&self, tables: &Tables, run: &mut Self::Run, state: &mut [u8]) -> u64;
    fn sign_header(
        &self,
        tables: &Tables,
        header: &[u8],
        announced: u64,
        state: &[u8],
        run: &mut Self::Run,
    ) -> u64;
    fn sign_part(&self, data: &[u8], run: &mut Self::Run) -> u64;
    /// As `judge_end`.
    fn sign_end(&self, run: &mut Self::Run, out: &mut [u8], state: &mut [u8]) -> u64;
}

/// What happens next, at the run of this index.
#[derive(Clone, Debug, PartialEq, Eq)]
pub enum Step {
    JudgeHeader {
        run: usize,
        tables: Tables,
        source: Vec<u8>,
        destination: Vec<u8>,
        header: Vec<u8>,
        announced: u64,
    },
    JudgePart {
        run: usize,
        data: Vec<u8>,
    },
    JudgeEnd {
        run: usize,
        tables: Tables,
    },
    SignHeader {
        run: usize,
        tables: Tables,
        header: Vec<u8>,
        announced: u64,
    },
    SignPart {
        run: usize,
        data: Vec<u8>,
    },
    /// Into an output of so many bytes.
    SignEnd {
        run: usize,
        room: usize,
    },
    /// The state becomes another, of whichever length.
    State(Vec<u8>),
    /// The run's buffer gets another length.
    OtherLength {
        run: usize,
    },
    /// The run's buffer becomes one that no header call wrote to.
    Blank {
        run: usize,
    },
    /// The run is kept, and its copy goes on in another buffer.
    Copy {
        run: usize,
        to: usize,
    },
}

impl Step {
    /// The call's name, if it is one.
    pub fn name(&self) -> Option<&'static str> {
        match self {
            Step::JudgeHeader { .. } => Some("judge_header"),
            Step::JudgePart { .. } => Some("judge_part"),
            Step::JudgeEnd { .. } => Some("judge_end"),
            Step::SignHeader { .. } => Some("sign_header"),
            Step::SignPart { .. } => Some("sign_part"),
            Step::SignEnd { .. } => Some("sign_end"),
            _ => None,
        }
    }
}

/// One connection, and runs on it.
#[derive(Clone, Debug, PartialEq, Eq)]
pub struct Script {
    pub state: Vec<u8>,
    pub runs: usize,
    pub steps: Vec<Step>,
}

/// After a call.
#[derive(Clone, Debug, PartialEq, Eq)]
pub struct Outcome {
    /// The step's index.
    pub step: usize,
    pub word: u64,
    pub state: Vec<u8>,
    pub out: Vec<u8>,
    /// Whether the run is as it was, where it must be: after a refused header or part call, and after an end call.
    pub kept: bool,
}

/// Plays a script; an outcome for each call.
pub fn play<P: Pieces>(side: &P, script: &Script) -> Vec<Outcome> {
    let mut state = script.state.clone();
    let mut runs = vec![side.blank(); script.runs];
    let mut outcomes = vec![];
    for (index, step) in script.steps.iter().enumerate() {
        let mut out = vec![];
        let before = runs.clone();
        let (word, run, ends) = match step {
            Step::JudgeHeader {
                run,
                tables,
                source,
                destination,
                header,
                announced,
            } => {
                let lent = &mut runs[*run];
                let word = side.judge_header(
                    tables,
                    source,
                    destination,
                    header,
                    *announced,
                    &state,
                    lent,
                );
                (word, *run, false)
            }
            Step::JudgePart { run, data } => (side.judge_part(data, &mut runs[*run]), *run, false),
            Step::JudgeEnd { run, tables } => {
                let word = side.judge_end(tables, &mut runs[*run], &mut state);
                (word, *run, true)
            }
            Step::SignHeader {
                run,
                tables,
                header,
                announced,
            } => {
                let lent = &mut runs[*run];
                let word = side.sign_header(tables, header, *announced, &state, lent);
                (word, *run, false)
            }
            Step::SignPart { run, data } => (side.sign_part(data, &mut runs[*run]), *run, false),
            Step::SignEnd { run, room } => {
                out = vec![0xee; *room];
                let word = side.sign_end(&mut runs[*run], &mut out, &mut state);
                (word, *run, true)
            }
            Step::State(bytes) => {
                state = bytes.clone();
                continue;
            }
            Step::OtherLength { run } => {
                runs[*run] = side.of_other_length(&runs[*run]);
                continue;
            }
            Step::Blank { run } => {
                runs[*run] = side.blank();
                continue;
            }
            Step::Copy { run, to } => {
                runs[*to] = runs[*run].clone();
                continue;
            }
        };
        let must_stay = ends || crate::number(word) != 0;
        outcomes.push(Outcome {
            step: index,
            word,
            state: state.clone(),
            out,
            kept: !must_stay || runs[run] == before[run],
        });
    }
    outcomes
}

/// A type with the calls of a package that has them in `boundary`, over `pieces::Buffer`.
#[macro_export]
macro_rules! pieces_of {
    ($(#[$about:meta])* $name:ident, $package:ident) => {
        $(#[$about])*
        #[derive(Clone, Copy, Debug)]
        pub struct $name;

        impl $crate::pieces::Pieces for $name {
            type Run = $package::pieces::Buffer;

            fn blank(&self) -> Self::Run {
                $package::pieces::Buffer::Blank
            }

            fn of_other_length(&self, _: &Self::Run) -> Self::Run {
                $package::pieces::Buffer::OfOtherLength
            }

            fn judge_header(
                &self,
                tables: &$crate::pieces::Tables,
                source: &[u8],
                destination: &[u8],
                header: &[u8],
                announced: u64,
                state: &[u8],
                run: &mut Self::Run,
            ) -> u64 {
                let $crate::pieces::Tables { form, keys, md5 } = tables;
                $package::boundary::tcpao_judge_header(
                    *form, keys, md5, source, destination, header, announced, state, run,
                )
            }

            fn judge_part(&self, data: &[u8], run: &mut Self::Run) -> u64 {
                $package::boundary::tcpao_judge_part(data, run)
            }

            fn judge_end(
                &self,
                tables: &$crate::pieces::Tables,
                run: &mut Self::Run,
                state: &mut [u8],
            ) -> u64 {
                let $crate::pieces::Tables { form, keys, md5 } = tables;
                $package::boundary::tcpao_judge_end(*form, keys, md5, run, state)
            }

            fn sign_header(
                &self,
                tables: &$crate::pieces::Tables,
                header: &[u8],
                announced: u64,
                state: &[u8],
                run: &mut Self::Run,
            ) -> u64 {
                let $crate::pieces::Tables { form, keys, md5 } = tables;
                $package::boundary::tcpao_sign_header(*form, keys, md5, header, announced, state, run)
            }

            fn sign_part(&self, data: &[u8], run: &mut Self::Run) -> u64 {
                $package::boundary::tcpao_sign_part(data, run)
            }

            fn sign_end(&self, run: &mut Self::Run, out: &mut [u8], state: &mut [u8]) -> u64 {
                $package::boundary::tcpao_sign_end(run, out, state)
            }
        }
    };
}

/// The same calls by pointers, as C makes them.
pub mod pointers {
    use super::{Pieces, Tables};

    type In = *const u8;
    type Out = *mut u8;
    type N = usize;

    /// The calls as the header declares them: each pointer before its length.
    pub struct Calls {
        pub judge_header:
            unsafe extern "C" fn(u8, In, N, In, N, In, N, In, N, In, N, u64, In, N, Out, N) -> u64,
        pub judge_part: unsafe extern "C" fn(In, N, Out, N) -> u64,
        pub judge_end: unsafe extern "C" fn(u8, In, N, In, N, In, N, Out, N) -> u64,
        pub sign_header: unsafe extern "C" fn(u8, In, N, In, N, In, N, u64, In, N, Out, N) -> u64,
        pub sign_part: unsafe extern "C" fn(In, N, Out, N) -> u64,
        pub sign_end: unsafe extern "C" fn(In, N, Out, N, Out, N) -> u64,
        /// How many bytes a run has.
        pub run_bytes: usize,
    }

    /// The calls in pieces of a module that has them under their names in C, with a run's length.
    #[macro_export]
    macro_rules! pieces_by_pointers {
        ($($module:ident)::+, $run_bytes:expr) => {
            $crate::pieces::pointers::Calls {
                judge_header: $($module)::+::tcpao_judge_header,
                judge_part: $($module)::+::tcpao_judge_part,
                judge_end: $($module)::+::tcpao_judge_end,
                sign_header: $($module)::+::tcpao_sign_header,
                sign_part: $($module)::+::tcpao_sign_part,
                sign_end: $($module)::+::tcpao_sign_end,
                run_bytes: $run_bytes,
            }
        };
    }

    // Each pointer is good for its length, and what is written overlaps nothing: they are Rust's own slices.
    impl Pieces for Calls {
        type Run = Vec<u8>;

        fn blank(&self) -> Vec<u8> {
            vec![0; self.run_bytes]
        }

        /// One byte less, or more if it is shorter already.
        fn of_other_length(&self, run: &Vec<u8>) -> Vec<u8> {
            let mut other = run.clone();
            let less = run.len() == self.run_bytes;
            other.resize(
                if less {
                    self.run_bytes - 1
                } else {
                    self.run_bytes + 1
                },
                0,
            );
            other
        }

        fn judge_header(
            &self,
            tables: &Tables,
            source: &[u8],
            destination: &[u8],
            header: &[u8],
            announced: u64,
            state: &[u8],
            run: &mut Vec<u8>,
        ) -> u64 {
            let Tables { form, keys, md5 } = tables;
            unsafe {
                (self.judge_header)(
                    *form,
                    keys.as_ptr(),
                    keys.len(),
                    md5.as_ptr(),
                    md5.len(),
                    source.as_ptr(),
                    source.len(),
                    destination.as_ptr(),
                    destination.len(),
                    header.as_ptr(),
                    header.len(),
                    announced,
                    state.as_ptr(),
                    state.len(),
                    run.as_mut_ptr(),
                    run.len(),
                )
            }
        }

        fn judge_part(&self, data: &[u8], run: &mut Vec<u8>) -> u64 {
            unsafe { (self.judge_part)(data.as_ptr(), data.len(), run.as_mut_ptr(), run.len()) }
        }

        fn judge_end(&self, tables: &Tables, run: &mut Vec<u8>, state: &mut [u8]) -> u64 {
            let Tables { form, keys, md5 } = tables;
            unsafe {
                (self.judge_end)(
                    *form,
                    keys.as_ptr(),
                    keys.len(),
                    md5.as_ptr(),
                    md5.len(),
                    run.as_ptr(),
                    run.len(),
                    state.as_mut_ptr(),
                    state.len(),
                )
            }
        }

        fn sign_header(
            &self,
            tables: &Tables,
            header: &[u8],
            announced: u64,
            state: &[u8],
            run: &mut Vec<u8>,
        ) -> u64 {
            let Tables { form, keys, md5 } = tables;
            unsafe {
                (self.sign_header)(
                    *form,
                    keys.as_ptr(),
                    keys.len(),
                    md5.as_ptr(),
                    md5.len(),
                    header.as_ptr(),
                    header.len(),
                    announced,
                    state.as_ptr(),
                    state.len(),
                    run.as_mut_ptr(),
                    run.len(),
                )
            }
        }

        fn sign_part(&self, data: &[u8], run: &mut Vec<u8>) -> u64 {
            unsafe { (self.sign_part)(data.as_ptr(), data.len(), run.as_mut_ptr(), run.len()) }
        }

        fn sign_end(&self, run: &mut Vec<u8>, out: &mut [u8], state: &mut [u8]) -> u64 {
            unsafe {
                (self.sign_end)(
                    run.as_ptr(),
                    run.len(),
                    out.as_mut_ptr(),
                    out.len(),
                    state.as_mut_ptr(),
                    state.len(),
                )
            }
        }
    }
}

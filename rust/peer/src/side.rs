//! A side of a run: begin, send, take, answer and opening count.

use crate::field::all_below_q;
use crate::message::{message_length, read_message, write_message, Header, Opening, MAX_OPENINGS};
use crate::refusal::{ask, Refusal};
use crate::rounds::{join, own_openings, Player};
use crate::settings::{ask_keys, Settings, KEYS, MAX_COUNT, ROUNDS, WIDTH};

pub use crate::rounds::WORK_LENGTH;

pub const SERVER: usize = 0;
pub const PHONE: usize = 1;

/// What a side begins a run with.
#[derive(Clone, Copy, Debug)]
pub struct Begin<'a> {
    pub side: u32,
    pub set: u32,
    pub kind: u32,
    pub count: u32,
    pub bound: u32,
    pub serial: u32,
    /// The side's own keys.
    pub keys: [u32; KEYS],
    /// A shared number for each coefficient.
    pub inputs: &'a [u32],
    pub book: &'a [u32],
}

#[derive(Clone, Copy, Debug, PartialEq, Eq)]
enum State {
    /// The message of the current round is due to be sent.
    Send,
    /// The message of the current round is due to be taken.
    Take,
    Finished,
    Stopped,
}

#[derive(Clone, Copy, Debug, PartialEq, Eq)]
struct Run {
    side: usize,
    settings: Settings,
    serial: u32,
    keys: [u32; KEYS],
    round: u8,
    state: State,
    answer: [u32; MAX_COUNT],
}

/// A side; its latest run, if one has begun.
#[derive(Clone, Debug, Default, PartialEq, Eq)]
pub struct Side {
    run: Option<Run>,
}

impl Side {
    pub fn new() -> Side {
        Side::default()
    }

    /// Begins a run. Asks questions 8 and 1 to 7.
    pub fn begin(&mut self, with: &Begin, work: &mut [u32]) -> Result<(), Refusal> {
        let (under_way, last_serial) = match &self.run {
            Some(run) => (matches!(run.state, State::Send | State::Take), run.serial),
            None => (false, 0),
        };
        ask(!under_way, Refusal::NotDue)?;
        ask(with.side < 2, Refusal::Selector)?;
        let settings = Settings::new(with.set, with.kind, with.count, with.bound)?;
        ask_keys(&with.keys)?;
        let shape = settings.shape;
        ask(with.inputs.len() == WIDTH * shape.count, Refusal::Length)?;
        ask(with.book.len() == shape.book_length(), Refusal::Length)?;
        ask(work.len() == WORK_LENGTH, Refusal::Length)?;
        ask(all_below_q(with.inputs), Refusal::Range)?;
        ask(all_below_q(with.book), Refusal::Range)?;
        ask(with.serial > last_serial, Refusal::Serial)?;

        let side = with.side as usize;
        let run = Run {
            side,
            settings,
            serial: with.serial,
            keys: with.keys,
            round: 1,
            state: if side == SERVER {
                State::Send
            } else {
                State::Take
            },
            answer: [0; MAX_COUNT],
        };
        run.player(work).start(with.inputs, with.book);
        self.run = Some(run);
        Ok(())
    }

    /// Writes the message due and gives its length. Asks questions 8, 5, 6, 9.
    pub fn send(&mut self, work: &[u32], out: &mut [u8]) -> Result<usize, Refusal> {
        let run = self.run_in(State::Send)?;
        ask_work(work)?;
        let openings = run.settings.shape.openings(run.round);
        let length = message_length(openings);
        let out = out.get_mut(..length).ok_or(Refusal::Output)?;

        let receiver = 1 - run.side;
        let header = Header::new(run.side, &run.settings, run.round, run.serial);
        let own = own_openings(work, run.round, openings).map(|shared| Opening {
            share: shared.share(),
            checks: shared.parts(receiver),
        });
        write_message(&header, own, out);
        match run.side {
            SERVER => run.state = State::Take,
            _ => run.next_round(State::Take),
        }
        Ok(length)
    }

    /// Takes the message due. Asks questions 8, 5, 6 and 10 to 13.
    pub fn take(&mut self, work: &mut [u32], message: &[u8]) -> Result<(), Refusal> {
        let run = self.run_in(State::Take)?;
        ask_work(work)?;
        let count = run.settings.shape.openings(run.round);
        let header = Header::new(1 - run.side, &run.settings, run.round, run.serial);
        let mut received = [Opening::default(); MAX_OPENINGS];
        let received = &mut received[..count];
        read_message(&header, message, received)?;

        let mut joined = [0; MAX_OPENINGS];
        let joined = &mut joined[..count];
        let own = own_openings(work, run.round, count);
        for ((place, own), other) in joined.iter_mut().zip(own).zip(received) {
            match join(run.side, &run.keys, own, other) {
                Some(number) => *place = number,
                None => {
                    run.state = State::Stopped;
                    return Err(Refusal::Check);
                }
            }
        }

        run.player(work).advance(run.round, joined);
        if run.round == ROUNDS {
            run.answer[..count].copy_from_slice(joined);
        }
        match run.side {
            SERVER => run.next_round(State::Send),
            _ => run.state = State::Send,
        }
        Ok(())
    }

    /// Writes the answer of a finished run and gives its length. Asks 8, 15, 9.
    pub fn answer(&self, out: &mut [u32]) -> Result<usize, Refusal> {
        let run = self.run.as_ref().ok_or(Refusal::NotDue)?;
        ask(run.state == State::Finished, Refusal::NotDue)?;
        let shape = run.settings.shape;
        let answer = &run.answer[..shape.answer_length()];
        let in_range = answer.iter().all(|&number| number < shape.answer_limit());
        ask(in_range, Refusal::Answer)?;
        let out = out.get_mut(..answer.len()).ok_or(Refusal::Output)?;
        out.copy_from_slice(answer);
        Ok(answer.len())
    }

    /// Openings accepted in the latest run.
    pub fn opening_count(&self) -> usize {
        self.run.as_ref().map_or(0, |run| {
            (1..=run.rounds_taken())
                .map(|round| run.settings.shape.openings(round))
                .sum()
        })
    }

    /// The latest run, if it is in this state.
    fn run_in(&mut self, state: State) -> Result<&mut Run, Refusal> {
        self.run
            .as_mut()
            .filter(|run| run.state == state)
            .ok_or(Refusal::NotDue)
    }
}

impl Run {
    fn player<'a>(&self, work: &'a mut [u32]) -> Player<'a> {
        Player {
            side: self.side,
            keys: self.keys,
            settings: self.settings,
            work,
        }
    }

    /// Goes to the next round, or finishes after the last one.
    fn next_round(&mut self, state: State) {
        if self.round == ROUNDS {
            self.state = State::Finished;
        } else {
            self.round += 1;
            self.state = state;
        }
    }

    fn rounds_taken(&self) -> u8 {
        match self.state {
            State::Finished => ROUNDS,
            State::Send if self.side == PHONE => self.round,
            _ => self.round - 1,
        }
    }
}

/// Questions 5 and 6 of a working slice.
fn ask_work(work: &[u32]) -> Result<(), Refusal> {
    ask(work.len() == WORK_LENGTH, Refusal::Length)?;
    ask(all_below_q(work), Refusal::Range)
}

//! How long a call waits, and what it does between two turns.

use std::hint;
use std::thread;
use std::time::{Duration, Instant};

/// How long a call such as [`Retired::destroy`](crate::Retired::destroy) keeps trying, at least
/// once. It also takes a [`Duration`] or an [`Instant`]. One try is a turn. Between two turns the
/// call holds no lock, and waits as `kupaldiz_destroy_wait` does, in this order:
///
/// 1. It spins 16 times, for 1, 2, 4, .. 256 and then 256 pause instructions: 2,303 in all, some 90
///    microseconds. If a reader's thread runs, its section is over by then.
/// 2. It yields 8 times: the reader's thread may wait for this processor.
/// 3. It sleeps, for 16 microseconds at first, twice as long each time, 8 milliseconds at most.
///
/// ```
/// use kupaldiz::{Patience, Registry, Settings};
/// use std::time::{Duration, Instant};
///
/// let registry = Registry::open(Settings::new(1, 1)).unwrap();
/// registry.attach("wm", 7).unwrap();
/// let held = registry.get("wm").unwrap();
/// let retired = registry.detach("wm").unwrap();
/// let retired = retired.destroy(Patience::Turns(2)).unwrap_err().given; // tries twice
/// let retired = retired.destroy(Duration::from_millis(2)).unwrap_err().given;
/// let retired = retired.destroy(Instant::now()).unwrap_err().given; // tries once
/// drop(held);
/// assert_eq!(retired.destroy(Patience::Forever).unwrap().value, 7);
/// ```
#[derive(Clone, Copy, Debug, PartialEq, Eq, Hash)]
#[non_exhaustive]
pub enum Patience {
    /// Try this many times. 0 means 1.
    Turns(u32),
    /// Keep trying until this time has come. The call looks at the clock after each try that
    /// fails.
    Until(Instant),
    /// Keep trying until the call is done.
    Forever,
}

impl From<Duration> for Patience {
    /// Keep trying until this much time from now has passed: a call that takes a time measures it
    /// from its begin. It is `Forever` if no [`Instant`] is that late.
    fn from(time: Duration) -> Patience {
        Instant::now().checked_add(time).map_or(Patience::Forever, Patience::Until)
    }
}

impl From<Instant> for Patience {
    fn from(deadline: Instant) -> Patience {
        Patience::Until(deadline)
    }
}

const SPINS: u32 = 16;
const YIELDS: u32 = 8;
const MOST_PAUSES: u32 = 256;
const FIRST_SLEEP: Duration = Duration::from_micros(16);
const LONGEST_SLEEP: Duration = Duration::from_millis(8);

/// What a wait does between two turns.
#[derive(Debug, PartialEq, Eq)]
enum Pause {
    /// So many pause instructions.
    Spin(u32),
    Yield,
    Sleep(Duration),
}

impl Pause {
    /// After so many turns, from 1.
    fn after(made: u32) -> Pause {
        let doubled = |from: u32| 1 << (made - from - 1).min(9);
        match made {
            0..=SPINS => Pause::Spin(MOST_PAUSES.min(doubled(0))),
            made if made <= SPINS + YIELDS => Pause::Yield,
            _ => Pause::Sleep(LONGEST_SLEEP.min(FIRST_SLEEP * doubled(SPINS + YIELDS))),
        }
    }
}

/// One wait: what is left of the patience.
pub struct Pauses {
    patience: Patience,
    made: u32,
}

impl Pauses {
    pub fn new(patience: Patience) -> Pauses {
        Pauses { patience, made: 0 }
    }

    /// Whether another turn may be made, after a pause that has passed then. Call it after each
    /// turn.
    pub fn another(&mut self) -> bool {
        self.made = self.made.saturating_add(1);
        let left = match self.patience {
            Patience::Turns(turns) if self.made >= turns => return false,
            Patience::Turns(_) | Patience::Forever => Duration::MAX,
            Patience::Until(deadline) => deadline.saturating_duration_since(Instant::now()),
        };
        if left.is_zero() {
            return false;
        }
        match Pause::after(self.made) {
            Pause::Spin(pauses) => (0..pauses).for_each(|_| hint::spin_loop()),
            Pause::Yield => thread::yield_now(),
            Pause::Sleep(length) => thread::sleep(length.min(left)),
        }
        true
    }
}

#[cfg(test)]
mod tests {
    use super::{Patience, Pause, Pauses};
    use std::time::{Duration, Instant};

    /// How many turns a wait allows, of at most so many.
    fn turns(patience: Patience, most: usize) -> usize {
        let mut pauses = Pauses::new(patience);
        1 + (1..most).take_while(|_| pauses.another()).count()
    }

    #[test]
    fn so_many_turns_are_made_and_one_at_least() {
        assert_eq!([0, 1, 2, 30].map(|count| turns(Patience::Turns(count), 100)), [1, 1, 2, 30]);
        assert_eq!(
            (turns(Patience::Forever, 30), turns(Patience::Until(Instant::now()), 100)),
            (30, 1)
        );
        assert_eq!(Patience::from(Duration::MAX), Patience::Forever);
    }

    /// However many turns were made, there is another one: no wait has a last turn but by what it
    /// was told.
    #[test]
    fn a_wait_has_no_last_turn_of_its_own() {
        for made in [1_000, 100_000, 1_000_000, u32::MAX - 1, u32::MAX] {
            for patience in [Patience::Forever, Patience::from(Duration::from_secs(1_000_000))] {
                assert!(Pauses { patience, made }.another(), "{made} turns");
            }
        }
        let (patience, made) = (Patience::Turns(u32::MAX), u32::MAX - 2);
        assert!(Pauses { patience, made }.another());
    }

    #[test]
    fn a_deadline_ends_the_wait_and_not_before() {
        let began = Instant::now();
        let made = turns(Patience::from(Duration::from_millis(30)), usize::MAX);
        assert!(began.elapsed() >= Duration::from_millis(30));
        // The first, sixteen after a spin, eight after a yield, and twelve after sleeps, which take
        // 30 milliseconds or more.
        assert!(made <= 37, "{made} turns");
    }

    #[test]
    fn a_wait_spins_and_yields_before_it_sleeps() {
        let pauses: Vec<Pause> = (1..=36).map(Pause::after).collect();
        let spun = pauses[..16].iter().map(|pause| match pause {
            Pause::Spin(pauses) => *pauses,
            other => panic!("{other:?}"),
        });
        assert_eq!((spun.clone().max(), spun.sum::<u32>()), (Some(256), 2_303));
        assert!(pauses[16..24].iter().all(|pause| *pause == Pause::Yield));
        let slept = [16, 32, 64, 128, 256, 512, 1024, 2048, 4096, 8000, 8000, 8000];
        assert_eq!(pauses[24..], slept.map(|micros| Pause::Sleep(Duration::from_micros(micros))));
        assert_eq!(Pause::after(u32::MAX), Pause::Sleep(Duration::from_millis(8)));
    }
}

//! Medians of interleaved rounds.

use std::arch::asm;
use std::ops::Range;
use std::time::{Duration, Instant};

/// What all contenders store into.
pub struct Rooms {
    pub numbers: Vec<u64>,
    pub octets: Vec<u8>,
}

/// Something to time: a call for each of its messages.
pub struct Contender<'a> {
    messages: usize,
    run: Box<Run<'a>>,
}

/// The calls for a range of the messages, so many times.
type Run<'a> = dyn FnMut(Range<usize>, usize, &mut Rooms) + 'a;

/// How long a contender runs at a time, where one message is shorter. It is short so that where the machine is taken
/// away for other work, that falls on few of the times and not on the median.
const LAP: Duration = Duration::from_micros(200);

/// How many messages of a stream make a lap.
pub const LAP_MESSAGES: usize = 250;

/// As `std::hint::black_box`, which older compilers lack: the compiler takes the value to be used, and to be any.
#[inline(always)]
pub fn black_box<T>(mut value: T) -> T {
    // SAFETY: there is no instruction. The value could be read and changed there, and is not.
    unsafe { asm!("/* {0} */", in(reg) &mut value, options(nostack, preserves_flags)) };
    value
}

impl<'a> Contender<'a> {
    pub fn new<T: Copy + 'a, A>(messages: Vec<T>, call: impl Fn(T, &mut Rooms) -> A + 'a) -> Contender<'a> {
        Contender {
            messages: messages.len(),
            run: Box::new(move |range, times, rooms| {
                let messages = &messages[range];
                for _ in 0..times {
                    for &message in messages {
                        black_box(call(black_box(message), black_box(&mut *rooms)));
                    }
                }
            }),
        }
    }

    /// A call for each message, once.
    pub fn once(&mut self, rooms: &mut Rooms) {
        (self.run)(0..self.messages, 1, rooms);
    }

    fn time(&mut self, range: Range<usize>, times: usize, rooms: &mut Rooms) -> Duration {
        let start = Instant::now();
        (self.run)(range, times, rooms);
        start.elapsed()
    }

    /// The messages of each lap.
    fn laps(&self) -> Vec<Range<usize>> {
        let starts = (0..self.messages).step_by(LAP_MESSAGES);
        starts.map(|start| start..self.messages.min(start + LAP_MESSAGES)).collect()
    }

    /// How many times the messages are to be run in a lap: a stream's once, so that they come from afar.
    fn times(&mut self, rooms: &mut Rooms) -> usize {
        if self.messages > LAP_MESSAGES {
            return 1;
        }
        let mut times = 1;
        loop {
            let time = self.time(0..self.messages, times, rooms);
            if time >= LAP / 2 {
                return (LAP.as_nanos() * times as u128 / time.as_nanos()).max(1) as usize;
            }
            times *= 2;
        }
    }
}

/// The nanoseconds per message of each, by the median of every lap. All of them run in every round, and each round
/// begins with another.
pub fn medians(contenders: &mut [Contender], rooms: &mut Rooms, rounds: usize) -> Vec<f64> {
    let times: Vec<usize> = contenders.iter_mut().map(|contender| contender.times(rooms)).collect();
    let mut laps: Vec<Vec<Vec<Duration>>> =
        contenders.iter().map(|contender| vec![Vec::new(); contender.laps().len()]).collect();
    for round in 0..rounds {
        for turn in 0..contenders.len() {
            let number = (round + turn) % contenders.len();
            let contender = &mut contenders[number];
            for (range, lap) in contender.laps().into_iter().zip(&mut laps[number]) {
                lap.push(contender.time(range, times[number], rooms));
            }
        }
    }
    let total = |laps: Vec<Vec<Duration>>| laps.into_iter().map(median).sum::<Duration>().as_nanos() as f64;
    let calls = contenders.iter().zip(times).map(|(contender, times)| contender.messages * times);
    laps.into_iter().map(total).zip(calls).map(|(time, calls)| time / calls as f64).collect()
}

fn median(mut times: Vec<Duration>) -> Duration {
    times.sort();
    times[times.len() / 2]
}

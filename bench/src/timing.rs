//! Times some ways of doing the same work, turn by turn.
use std::hint::black_box;
use std::time::Instant;

const ROUNDS: usize = 51;

/// A batch of calls takes about this long, so that reading the clock does not count.
const BATCH_NANOSECONDS: f64 = 500_000.0;

/// Nanoseconds a call, of a batch of calls.
fn timed<W>(run: &dyn Fn(&mut W), calls: usize, work: &mut W) -> f64 {
    let start = Instant::now();
    for _ in 0..calls {
        run(black_box(work));
    }
    start.elapsed().as_nanos() as f64 / calls as f64
}

pub fn median(times: &mut [f64]) -> f64 {
    times.sort_by(f64::total_cmp);
    times[times.len() / 2]
}

/// The median nanoseconds a call of each way. In every round each way has its turn, and another one begins.
pub fn alternate<W, const N: usize>(ways: [&dyn Fn(&mut W); N], work: &mut W) -> [f64; N] {
    let calls = ways.map(|run| {
        let once = timed(run, 3, work);
        (BATCH_NANOSECONDS / once) as usize + 1
    });
    let mut times = [const { Vec::new() }; N];
    for round in 0..ROUNDS {
        for turn in 0..N {
            let way = (round + turn) % N;
            times[way].push(timed(ways[way], calls[way], work));
        }
    }
    times.map(|mut of_way| median(&mut of_way))
}

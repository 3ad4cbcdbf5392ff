//! How calls are measured, and the table of what they take.

use std::hint::black_box;
use std::time::Instant;

/// A call by a crate on many rows, with the least time that it took.
pub struct Call<'a> {
    name: String,
    by: &'static str,
    count: u64,
    run: Box<dyn FnMut() -> u64 + 'a>,
    answer: Option<u64>,
    least: f64,
}

impl<'a> Call<'a> {
    /// What adds up `count` answers.
    pub fn new(name: &str, by: &'static str, count: usize, run: impl FnMut() -> u64 + 'a) -> Self {
        Call {
            name: name.to_string(),
            by,
            count: count as u64,
            run: Box::new(run),
            answer: None,
            least: f64::INFINITY,
        }
    }

    /// A call on each of these rows.
    pub fn on<T>(
        name: &str,
        by: &'static str,
        rows: &'a [T],
        call: impl Fn(&T) -> u64 + 'a,
    ) -> Self {
        let run = move || {
            rows.iter()
                .map(|row| call(black_box(row)))
                .fold(0, u64::wrapping_add)
        };
        Call::new(name, by, rows.len(), run)
    }

    /// Runs it once, so that what it reads is near, and then as often as a clock can measure.
    fn measure(&mut self) {
        self.answer = Some(black_box((self.run)()));
        let times = (4096 / self.count).max(1);
        let start = Instant::now();
        for _ in 0..times {
            black_box((self.run)());
        }
        let each = start.elapsed().as_secs_f64() * 1e9 / (self.count * times) as f64;
        self.least = self.least.min(each);
    }
}

/// Measures all calls one after the other, in each of `passes`, and prints the least times: a line for a call, and a
/// column for what answers it, in brackets ours divided by it. Whoever answers a call has to give the same answers, but
/// where `differ` names it. The last line names what took more than 1.05 of the time of `bound`.
pub fn compare(
    calls: &mut [Call<'_>],
    passes: usize,
    columns: &[&'static str],
    bound: &str,
    differ: &[&str],
) {
    for _ in 0..passes {
        calls.iter_mut().for_each(Call::measure);
    }
    let own = columns[0];
    println!(
        "{:<24}{}",
        "ns",
        columns
            .iter()
            .map(|each| format!("{each:>22}"))
            .collect::<String>()
    );
    let mut slower = Vec::new();
    for call in calls.iter().filter(|call| call.by == own) {
        print!("{:<24}{:>22.2}", call.name, call.least);
        for column in &columns[1..] {
            let peer = calls
                .iter()
                .find(|peer| peer.by == *column && peer.name == call.name);
            let Some(peer) = peer else {
                print!("{:>22}", "");
                continue;
            };
            let by_peer = call.least / peer.least;
            print!("{:>22}", format!("{:.2} ({by_peer:.2})", peer.least));
            if !differ.contains(&call.name.as_str()) {
                assert_eq!(
                    call.answer, peer.answer,
                    "{} of {column} answers otherwise",
                    call.name
                );
            }
            if *column == bound && by_peer > 1.05 {
                slower.push(format!("{} {by_peer:.2}", call.name));
            }
        }
        println!();
    }
    let all = if slower.is_empty() {
        "none".to_string()
    } else {
        slower.join(", ")
    };
    println!("More than 1.05 of {bound}: {all}");
}

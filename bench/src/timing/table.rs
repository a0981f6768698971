//! The table of times.

use super::clock::medians;
use super::pages::Pages;
use super::plans::{Count, Plan};
use super::scene::{Baseline, Scene};
use crate::trials::case::{Lent, Side};

pub fn print_head() {
    let head = |a, b, c, d, e| println!("{:58} {a:>11} {b:>11} {c:>8} {d:>8} {e:>8}", "");
    head("proved", "plain", "proved/", "proved/", "proved/");
    head("", "", "plain", "memcpy", "memcpy");
    head("", "", "", "8,192", "256");
}

pub fn print_title(title: &str) {
    println!("{title}");
}

/// Times a plan over memory, prints its row, and hands the memory back.
pub fn row<Proved: Side, Plain: Side>(lent: Lent<Pages>, plan: Plan) -> Lent<Pages> {
    let Plan {
        what,
        script,
        count,
        baseline,
    } = plan;
    let mut scene = Scene::new(lent, script);
    scene.check::<Plain>();
    scene.check::<Proved>();
    let [segments, blocks] = baseline.copies();
    let sides = [
        Scene::timed::<Proved>,
        Scene::timed::<Plain>,
        segments,
        blocks,
    ];
    let [proved, plain, copies @ ..] = medians(&mut scene, sides);
    let by_copies = copies.map(|copies| match baseline {
        Baseline::None => String::new(),
        _ => format!("{:.2}", proved / copies),
    });
    println!(
        "  {what:56} {:>11} {:>11} {:>8.2} {:>8} {:>8}",
        rate(count, proved),
        rate(count, plain),
        proved / plain,
        by_copies[0],
        by_copies[1],
    );
    scene.lent
}

/// Gigabytes a second, or rounds in thousands or millions.
fn rate(count: Count, seconds: f64) -> String {
    match count {
        Count::Bytes(bytes) => format!("{:.2} GB/s", bytes as f64 / seconds / 1e9),
        Count::Rounds(rounds) => match f64::from(rounds) / seconds {
            few if few < 1e5 => format!("{:.2} k/s", few / 1e3),
            many => format!("{:.2} M/s", many / 1e6),
        },
    }
}

//! The figures, to be read and to be plotted.

use crate::benchmark::Benchmark;
use crate::figures::Figures;

type Line<'a> = (&'a Benchmark, Figures);

pub fn print(lines: &[Line]) {
    println!("Medians of the runs of each side, by turns. The ratio is our time by the other's: below 1 ours is faster.");
    println!("Half of the ratios of neighbouring runs lie in the range at the end.");
    println!();
    println!(
        "| what | size | input | beside | runs | ours, µs | the other, µs | ratio | half of the ratios |"
    );
    println!("|---|---|---|---|---|---|---|---|---|");
    for (Benchmark { what, size, input, beside, runs, .. }, Figures { ours, other, ratio, low, high }) in
        lines
    {
        let (ours, other) = (ours / 1000.0, other / 1000.0);
        print!("| {what} | {size} | {input} | {beside} | {runs} | {ours:.2} | {other:.2} ");
        println!("| {ratio:.2} | {low:.2} to {high:.2} |");
    }
}

pub fn csv(lines: &[Line]) -> String {
    let head = String::from("what,size,input,beside,runs,ours_ns,other_ns,ratio,low,high\n");
    lines.iter().fold(head, |text, (Benchmark { what, size, input, beside, runs, .. }, f)| {
        let Figures { ours, other, ratio, low, high } = f;
        text + &format!("\"{what}\",{size},{input},\"{beside}\",{runs},{ours:.1},{other:.1},{ratio:.4},{low:.4},{high:.4}\n")
    })
}

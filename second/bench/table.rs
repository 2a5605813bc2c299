//! A table of times, and what it is made of.

/// Prints a table's heading.
pub fn print_heading(what: &str) {
    println!();
    println!("{what:<32}{:>9}{:>9}{:>8}", "proved", "second", "ratio");
}

/// Nanoseconds of each round, of the proved code and of the second program.
#[derive(Default)]
pub struct Rounds {
    pub proved: Vec<f64>,
    pub second: Vec<f64>,
}

impl Rounds {
    /// Prints a row with the medians. The ratio is that of the rounds' own ratios: what slows the
    /// machine for some rounds leaves those alone.
    pub fn print(self, what: &str) {
        let pairs = self.second.iter().zip(&self.proved);
        let ratio = median(pairs.map(|(second, proved)| second / proved).collect());
        let proved = median(self.proved);
        let second = median(self.second);
        println!("{what:<32}{proved:>9.1}{second:>9.1}{ratio:>8.2}");
    }
}

fn median(mut times: Vec<f64>) -> f64 {
    times.sort_by(f64::total_cmp);
    times[times.len() / 2]
}

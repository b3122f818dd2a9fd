//! Tables of times or instructions and of ratios to goals.

/// The names of the ways of a table, the library's first, and a line for each case.
pub struct Table {
    pub title: &'static str,
    pub ways: &'static [&'static str],
    pub lines: Vec<Line>,
}

/// A case with the sorted times of each way, or its instructions alone, and the most that the library may take of the
/// time of each other way; `None` where it is only recorded.
pub struct Line {
    pub name: String,
    pub goals: Vec<Option<f64>>,
    pub measured: Vec<Vec<f64>>,
}

impl Line {
    /// The times in microseconds that one in so many repetitions stayed under, 2 for the median, and the library's as ratios
    /// to the others, each with its goal.
    fn text(&self, one_in: usize) -> String {
        let time = |of_way: &Vec<f64>| of_way[of_way.len() / one_in];
        let times: Vec<f64> = self.measured.iter().map(time).collect();
        let mut text = format!("{:<23}", self.name);
        for time in &times {
            text += &format!(" {time:>9.2}");
        }
        for (time, goal) in times[1..].iter().zip(&self.goals) {
            let goal = goal.map_or("(recorded)".to_string(), |most| {
                format!("(at most {most:.1})")
            });
            text += &format!("   {:>5.2} {goal:<13}", times[0] / time);
        }
        text.trim_end().to_string()
    }
}

impl Table {
    pub fn print(&self, one_in: usize) {
        let mut head = format!("{:<23}", self.title);
        for way in self.ways {
            head += &format!(" {way:>9}");
        }
        for way in &self.ways[1..] {
            head += &format!("   {:<19}", format!("/ {way} (goal)"));
        }
        println!("{}", head.trim_end());
        for line in &self.lines {
            println!("{}", line.text(one_in));
        }
    }

    /// The instructions of the library and of the ways in Rust, with ratios. Those of ISA-L and of a copy say little
    /// beside them: they go by registers of other widths.
    pub fn print_counts(&self) {
        let ways = self.ways.iter().enumerate();
        let in_rust: Vec<(usize, &str)> = ways
            .filter(|(_, way)| way.starts_with("Rust"))
            .map(|(i, way)| (i, *way))
            .collect();
        let mut head = format!("{:<23} {:>10}", self.title, self.ways[0]);
        for (_, way) in &in_rust {
            head += &format!(" {way:>10} {:>12}", format!("/ {way}"));
        }
        println!("{head}");
        for line in &self.lines {
            let count = |i: usize| line.measured[i][0];
            let mut text = format!("{:<23} {:>10}", line.name, count(0));
            for &(i, _) in &in_rust {
                text += &format!(" {:>10} {:>12.2}", count(i), count(0) / count(i));
            }
            println!("{text}");
        }
    }
}

//! Random texts.

pub struct Random(pub u64);

impl Random {
    /// A number below `limit`.
    pub fn below(&mut self, limit: u64) -> u64 {
        // xorshift64*
        self.0 ^= self.0 >> 12;
        self.0 ^= self.0 << 25;
        self.0 ^= self.0 >> 27;
        (self.0.wrapping_mul(0x2545_f491_4f6c_dd1d) >> 33) % limit
    }

    fn of<'a>(&mut self, choices: &[&'a str]) -> &'a str {
        let at = self.below(choices.len() as u64);
        choices[usize::try_from(at).unwrap()]
    }

    fn node(&mut self) -> String {
        let lengths = [
            "x",
            "o",
            "s",
            "q",
            "u",
            "(1)",
            "(1.5)",
            "(0)",
            "(-0)",
            "(1e-22)",
            "(-2.5e22)",
            "(inf)",
            "(-inf)",
        ];
        match self.below(8) {
            0..=5 => self.of(&["x", "o", "o", "o", "s"]).into(),
            6 => self.of(&lengths).into(),
            _ => format!("({}.{})", self.below(1000), self.below(1_000_000)),
        }
    }

    fn edge(&mut self) -> String {
        match self.below(12) {
            0..=6 => "3".into(),
            7..=10 => self
                .of(&["4", "5", "5/2", "6", "12", "7/3", "3/2", "2"])
                .into(),
            _ => self
                .of(&[
                    "4294967295",
                    "4294967295/4294967294",
                    "123456/789",
                    "100000/99999",
                ])
                .into(),
        }
    }

    /// As texts are typed: chains, with branches and cycles by references. It may be refused.
    pub fn typed(&mut self) -> String {
        let most = 1 + self.below(9);
        let references = self.below(5);
        let mut nodes = 1;
        let mut text = self.node();
        while nodes < most {
            match self.below(10) {
                pick if pick < references => {
                    text += self.of(&["", "3", "4"]);
                    text += &reference(self.below(nodes + 1));
                }
                9 => text += " ",
                _ => {
                    text += &self.edge();
                    text += &self.node();
                    nodes += 1;
                }
            }
        }
        text
    }

    /// Nodes, then edges of any pairs, up to all of them. It may be too long.
    pub fn graph(&mut self) -> String {
        let nodes = self.below(10);
        let share = 1 + self.below(10);
        let plain = self.below(3) > 0;
        let mut text = String::from("*a");
        for _ in 0..nodes {
            text += &if plain { "o".into() } else { self.node() };
        }
        for b in 0..nodes {
            for a in 0..=b {
                let limit = if a == b { 30 } else { 10 };
                if self.below(limit) < share {
                    let [a, b] = [a, b].map(reference);
                    let edge = if plain { "3".into() } else { self.edge() };
                    text.extend([a, edge, b]);
                }
            }
        }
        text
    }
}

fn reference(node: u64) -> String {
    let letters = b"abcdefghij";
    format!("*{}", char::from(letters[usize::try_from(node).unwrap()]))
}

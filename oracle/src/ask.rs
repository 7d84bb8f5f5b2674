//! One case by name on the command line, answered by both variants.

use crate::leaves::{Kind, Leaf, Penalty, SIZES};
use crate::record::{Case, Variant};
use crate::words::number;

/// Takes the words of the command line in turn.
struct Words<'a>(std::slice::Iter<'a, String>);

impl Words<'_> {
    fn word(&mut self) -> Result<&str, String> {
        let word = self.0.next().map(String::as_str);
        word.ok_or("ask: a word is missing".into())
    }

    fn number(&mut self) -> Result<f64, String> {
        number(self.word()?)
    }

    /// All that is left.
    fn numbers(&mut self) -> Result<Vec<f64>, String> {
        self.0.by_ref().map(|word| number(word)).collect()
    }

    fn penalty(&mut self) -> Result<Penalty, String> {
        let kind = match self.word()? {
            "l1" => Kind::L1,
            "l1plusl2" => Kind::L1PlusL2,
            "mcp" => Kind::Mcp,
            other => return Err(format!("ask: {other:?} is not l1, l1plusl2 or mcp")),
        };
        let alpha = self.number()?;
        let second = if kind == Kind::L1 {
            0.0
        } else {
            self.number()?
        };
        Ok(Penalty {
            kind,
            alpha,
            second,
        })
    }

    fn system(&mut self) -> Result<Leaf, String> {
        let word = self.word()?;
        let size: u32 = word
            .parse()
            .map_err(|_| format!("ask: {word:?} is not a size"))?;
        let rows = self.numbers()?;
        if SIZES.contains(&size) && rows.len() != (size * (size + 1)) as usize {
            return Err(format!(
                "ask: a system of size {size} wants size+1 numbers a row"
            ));
        }
        if !SIZES.contains(&size) && !rows.is_empty() {
            return Err("ask: a size outside 1 to 10 takes no rows".into());
        }
        Ok(Leaf::Solve { size, rows })
    }

    fn violation(&mut self, public: bool) -> Result<Leaf, String> {
        Ok(Leaf::Violation {
            public,
            penalty: self.penalty()?,
            weight: self.number()?,
            gradient: self.number()?,
        })
    }

    fn value(&mut self, public: bool) -> Result<Leaf, String> {
        let (penalty, weights) = (self.penalty()?, self.numbers()?);
        if weights.is_empty() && !public {
            return Err("ask: the inner value wants at least one weight".into());
        }
        Ok(Leaf::Value {
            public,
            penalty,
            weights,
        })
    }

    fn case(&mut self) -> Result<Leaf, String> {
        match self.word()? {
            "soft" => Ok(Leaf::Soft {
                x: self.number()?,
                threshold: self.number()?,
            }),
            "prox" => Ok(Leaf::Prox {
                penalty: self.penalty()?,
                value: self.number()?,
                step: self.number()?,
            }),
            "violation" => self.violation(true),
            "value" => self.value(true),
            "inner-violation" => self.violation(false),
            "inner-value" => self.value(false),
            "solve" => self.system(),
            other => Err(format!("ask: {other:?} is not a call")),
        }
    }
}

fn answers(case: &dyn Case, variant: Variant) -> String {
    let answers = case.answers(variant).into_iter();
    let texts: Vec<String> = answers
        .map(|(name, word)| format!("{name} {word} = {}", word.decimal()))
        .collect();
    texts.join(", ")
}

pub fn ask(words: &[String]) -> Result<(), String> {
    let mut words = Words(words.iter());
    let case = words.case()?;
    if let Some(word) = words.0.next() {
        return Err(format!("ask: {word:?} is one word too many"));
    }
    println!("loops {}", answers(&case, Variant::Loops));
    println!("published {}", answers(&case, Variant::Published));
    Ok(())
}

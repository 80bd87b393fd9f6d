//! Document 01's runner with 02's bitwise And and Or (A.5) and flags outside the save (A.10), for runs of compiled shops.

use oracle::image::Refusal;
use oracle::plain::{Binary, Block, Code, Command, Expr, Script, Sheet, Target, Unary};

/// A save, as far as compiled shops read it.
pub struct Save {
    pub items: Vec<i32>,
    pub atcs: Vec<i32>,
    pub flags: Vec<i32>,
    pub times: Vec<i32>,
    pub variables: Vec<i32>,
}

impl Save {
    pub fn new(sheet: &Sheet) -> Self {
        Self {
            items: vec![0; sheet.items()],
            atcs: vec![0; sheet.atcs.into()],
            flags: vec![0; 2_048],
            times: vec![0; 8],
            variables: vec![0; 1_024],
        }
    }

    /// The pair that a run left for a slot.
    pub fn pair(&self, slot: usize) -> (i32, i32) {
        (self.variables[600 + slot], self.variables[620 + slot])
    }
}

fn at(values: &[i32], index: i32) -> i32 {
    usize::try_from(index)
        .ok()
        .and_then(|i| values.get(i).copied())
        .unwrap_or(0)
}

fn evaluate(save: &Save, expr: &Expr) -> Result<i32, Refusal> {
    Ok(match expr {
        Expr::Imm16(n) => (*n).into(),
        Expr::Imm32(n) => *n,
        Expr::Other => return Err(Refusal(13)),
        Expr::Unary(kind, operand) => {
            let n = evaluate(save, operand)?;
            match kind {
                Unary::Not => (n == 0).into(),
                // A.10
                Unary::Flag if !(0..2_048).contains(&n) => return Err(Refusal(23)),
                Unary::Flag => at(&save.flags, n),
                Unary::Variable => at(&save.variables, n),
                Unary::Item => at(&save.items, n),
                Unary::Atc => at(&save.atcs, n),
                Unary::Time => at(&save.times, n),
            }
        }
        Expr::Binary(kind, left, right) => {
            let (l, r) = (evaluate(save, left)?, evaluate(save, right)?);
            match kind {
                Binary::Equal => (l == r).into(),
                Binary::NotEqual => (l != r).into(),
                Binary::Less => (l < r).into(),
                Binary::LessEqual => (l <= r).into(),
                Binary::Greater => (l > r).into(),
                Binary::GreaterEqual => (l >= r).into(),
                Binary::Add => l.wrapping_add(r),
                Binary::Subtract => l.wrapping_sub(r),
                Binary::BitAnd => l & r,
                Binary::BitOr => l | r,
            }
        }
    })
}

/// Where a block's commands lead: to a block, or to the end of the run.
fn step(save: &mut Save, code: &Code) -> Result<Option<usize>, Refusal> {
    for command in &code.commands {
        match command {
            Command::Return => return Ok(None),
            Command::Goto(block) | Command::EndIf(block) => return Ok(Some(*block)),
            Command::If(condition, other) if evaluate(save, condition)? == 0 => {
                return Ok(Some(*other));
            }
            Command::If(..) => break,
            Command::Set(Target::Variable(target), value) => {
                let index = evaluate(save, target)?;
                let value = evaluate(save, value)?;
                let place = usize::try_from(index).ok();
                if let Some(place) = place.and_then(|i| save.variables.get_mut(i)) {
                    *place = value;
                }
            }
            Command::Set(Target::Other, _) | Command::Other => return Err(Refusal(13)),
        }
    }
    code.next.map(Some).ok_or(Refusal(14))
}

/// Runs a script by document 01's rule and counts the blocks entered.
pub fn run(
    script: &Script,
    save: &mut Save,
    setup: usize,
    budget: u32,
) -> (Result<(), Refusal>, u32) {
    let mut entered = 0;
    let mut block = setup;
    loop {
        if entered == budget {
            return (Err(Refusal(15)), entered);
        }
        entered += 1;
        let Block::Code(code) = &script.blocks[block] else {
            return (Err(Refusal(13)), entered);
        };
        match step(save, code) {
            Ok(Some(next)) => block = next,
            Ok(None) => return (Ok(()), entered),
            Err(refusal) => return (Err(refusal), entered),
        }
    }
}

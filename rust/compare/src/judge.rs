//! The judgement of a script record in the place of refusals 2 to 5, by hand over the arrays, from document 01's sentence:
//! "block by block as its image would be: unknown code or an operand not below its parent 2; a limit passed, by its blocks or
//! its kept counts, or a kept count under what its blocks hold, 3; then 4 and 5". The kept counts are asked before the blocks.

use locustkeno::Arrays;
use oracle::image::{BLOCKS, COMMANDS, DEPTH, NODES, Refusal};

/// Refuses with a number unless something holds.
fn needs(holds: bool, refusal: u8) -> Result<(), Refusal> {
    if holds { Ok(()) } else { Err(Refusal(refusal)) }
}

/// Judges a record.
pub fn judge(a: &Arrays) -> Result<(), Refusal> {
    needs(within_limits(a), 3)?;
    needs(!under_held(a), 3)?;
    let mut image = Image {
        a,
        commands: 0,
        nodes: 0,
    };
    (0..a.blocks.into()).try_for_each(|at| image.block(at))
}

fn within_limits(a: &Arrays) -> bool {
    let fits = |count: u16, limit: usize| usize::from(count) <= limit;
    fits(a.blocks, BLOCKS) && fits(a.commands, COMMANDS) && fits(a.nodes, NODES)
}

/// Whether a kept count is under what the blocks hold: a command of a code block, or the root of one of its expressions, lies at
/// the count or past it.
fn under_held(a: &Arrays) -> bool {
    let mut held = (0..a.blocks.into())
        .map(|at| &a.bw[5 * at..][..5])
        .filter(|words| words[0] == 1)
        .flat_map(|words| usize::from(words[1])..usize::from(words[1]) + usize::from(words[2]));
    held.any(|at| at >= a.commands.into() || roots(a, at).any(|root| root >= a.nodes))
}

/// The expressions of a command that is there: value and Variable target of a Set, condition of an If.
fn roots(a: &Arrays, at: usize) -> impl Iterator<Item = u16> {
    let [code, first, second, target] = [0, 1, 2, 3].map(|k| a.cw[4 * at + k]);
    let (first, second) = match code {
        2 => ((target == 0).then_some(first), Some(second)),
        3 => (Some(first), None),
        _ => (None, None),
    };
    first.into_iter().chain(second)
}

/// The image of a record as it would be read, with what was counted so far. The kept counts are its limits.
struct Image<'a> {
    a: &'a Arrays,
    commands: usize,
    nodes: u16,
}

impl Image<'_> {
    fn block(&mut self, at: usize) -> Result<(), Refusal> {
        let [kind, first, many, next, other] = [0, 1, 2, 3, 4].map(|k| self.a.bw[5 * at + k]);
        needs(kind < 3, 2)?;
        if kind != 1 {
            return Ok(());
        }
        let (first, many) = (usize::from(first), usize::from(many));
        self.commands += many;
        needs(self.commands <= self.a.commands.into(), 3)?;
        (first..first + many).try_for_each(|at| self.command(at))?;
        needs(next <= self.a.blocks, 5)?;
        needs(other <= self.a.blocks, 5)
    }

    fn command(&mut self, at: usize) -> Result<(), Refusal> {
        let [code, block] = [0, 3].map(|k| self.a.cw[4 * at + k]);
        needs(code < 6, 2)?;
        needs(code != 2 || block < 2, 2)?;
        roots(self.a, at).try_for_each(|root| self.node(root, 1))?;
        let names_a_block = [1, 3, 4].contains(&code);
        needs(!names_a_block || block < self.a.blocks, 5)
    }

    fn node(&mut self, node: u16, depth: usize) -> Result<(), Refusal> {
        let at = usize::from(node);
        let [code, left, right] = [0, 1, 2].map(|k| self.a.ws[3 * at + k]);
        needs(code < 19, 2)?;
        needs(self.nodes < self.a.nodes, 3)?;
        self.nodes += 1;
        needs(depth <= DEPTH, 4)?;
        let operands: &[u16] = match code {
            11 => return needs(i16::try_from(self.a.val[at]).is_ok(), 2),
            12 | 18 => &[],
            6 | 13.. => &[left],
            _ => &[left, right],
        };
        for &operand in operands {
            needs(operand < node, 2)?;
            self.node(operand, depth + 1)?;
        }
        Ok(())
    }
}

//! A reclaim by hand over the script's arrays, as one writes it who trusts the record and the roots: nothing is checked.

use locustkeno::Arrays;

/// The survivors, before they are copied over the script.
#[derive(Default)]
struct Packed {
    ws: Vec<u16>,
    val: Vec<i32>,
    cw: Vec<u16>,
    bw: Vec<u16>,
}

/// Whether a command names a block.
fn names_a_block(code: u16) -> bool {
    matches!(code, 1 | 3 | 4)
}

/// The commands of a block, from their words.
fn commands<'a>(a: &'a Arrays, block: &[u16]) -> impl Iterator<Item = &'a [u16]> {
    let (first, many) = (usize::from(block[1]), usize::from(block[2]));
    a.cw[4 * first..][..4 * many].chunks_exact(4)
}

/// Which blocks are roots or reached, each visited once.
fn reached(a: &Arrays, roots: &[u32]) -> Vec<bool> {
    let mut lives = vec![false; a.blocks.into()];
    let mut waiting: Vec<usize> = roots.iter().map(|root| *root as usize).collect();
    while let Some(at) = waiting.pop() {
        if std::mem::replace(&mut lives[at], true) {
            continue;
        }
        let block = &a.bw[5 * at..][..5];
        if block[0] == 1 {
            let links = block[3..].iter().filter(|link| **link > 0);
            waiting.extend(links.map(|link| usize::from(*link) - 1));
            let targets = commands(a, block).filter(|command| names_a_block(command[0]));
            waiting.extend(targets.map(|command| usize::from(command[3])));
        }
    }
    lives
}

impl Packed {
    /// Copies an expression with its operands and says where it is.
    fn expr(&mut self, a: &Arrays, node: u16) -> u16 {
        let at = usize::from(node);
        let [code, left, right] = [0, 1, 2].map(|k| a.ws[3 * at + k]);
        let words = match code {
            11 | 12 | 18 => [code, 0, 0],
            6 | 13.. => [code, self.expr(a, left), 0],
            _ => [code, self.expr(a, left), self.expr(a, right)],
        };
        self.ws.extend(words);
        self.val.push(if matches!(code, 11 | 12) {
            a.val[at]
        } else {
            0
        });
        self.val.len() as u16 - 1
    }

    fn command(&mut self, a: &Arrays, moved: &[u16], command: &[u16]) {
        let mut words = [command[0], 0, 0, command[3]];
        match command[0] {
            2 => {
                if command[3] == 0 {
                    words[1] = self.expr(a, command[1]);
                }
                words[2] = self.expr(a, command[2]);
            }
            3 => words[1] = self.expr(a, command[1]),
            _ => (),
        }
        if names_a_block(command[0]) {
            words[3] = moved[usize::from(command[3])] - 1;
        }
        self.cw.extend(words);
    }

    fn block(&mut self, a: &Arrays, moved: &[u16], block: &[u16]) {
        let first = self.cw.len() as u16 / 4;
        if block[0] != 1 {
            self.bw.extend([block[0], 0, 0, 0, 0]);
            return;
        }
        for command in commands(a, block) {
            self.command(a, moved, command);
        }
        let [next, other] = [block[3], block[4]].map(|link| match link {
            0 => 0,
            link => moved[usize::from(link) - 1],
        });
        self.bw.extend([1, first, block[2], next, other]);
    }

    fn put(&self, a: &mut Arrays) {
        a.ws[..self.ws.len()].copy_from_slice(&self.ws);
        a.val[..self.val.len()].copy_from_slice(&self.val);
        a.cw[..self.cw.len()].copy_from_slice(&self.cw);
        a.bw[..self.bw.len()].copy_from_slice(&self.bw);
        a.nodes = self.val.len() as u16;
        a.commands = self.cw.len() as u16 / 4;
        a.blocks = self.bw.len() as u16 / 5;
    }
}

/// Takes back what no root reaches; the new number + 1 of each old block, or 0, comes out.
pub fn reclaim(a: &mut Arrays, roots: &[u32]) -> Vec<u16> {
    let lives = reached(a, roots);
    let mut moved = vec![0; lives.len()];
    let (mut packed, mut left) = (Packed::default(), 0);
    for (old, _) in lives.iter().enumerate().filter(|(_, lives)| **lives) {
        a.births[left] = a.births[old];
        left += 1;
        moved[old] = left as u16;
    }
    for (old, _) in lives.iter().enumerate().filter(|(_, lives)| **lives) {
        packed.block(a, &moved, &a.bw[5 * old..][..5]);
    }
    packed.put(a);
    moved
}

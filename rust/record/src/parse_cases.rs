//! Inputs of `slots`: random scripts, compiled ones, changed ones, damaged bytes and boundaries.

use crate::make::{self, Maker};
use crate::random::Random;
use oracle::calls;
use oracle::image::{BLOCKS, COMMANDS, put_number};
use oracle::plain::{Binary, Block, Code, Command, ENTRIES, Expr, Script, Target, Unary};
use oracle::slots::{self, Input};

/// One input, by a kind of case that follows from `index`.
pub fn input(random: &mut Random, index: usize) -> Vec<u8> {
    match index % 10 {
        8 => edge(random),
        9 => damaged(random),
        kind => slots::write(&whole(random, kind)),
    }
}

/// One input that can be read, by a kind of case from 0 to 7.
pub fn whole(random: &mut Random, kind: usize) -> Input {
    match kind {
        0 | 1 => random_input(random),
        2 | 3 => decisions(random),
        4 => compiled(random),
        5 => changed(random),
        6 => many_requirements(random),
        _ => deep(random),
    }
}

/// A number for the setup block, mostly that of a block.
fn setup(random: &mut Random, blocks: usize) -> u32 {
    match random.below(40) {
        0 => blocks as u32,
        1 => u32::MAX,
        2..=9 => random.below(blocks.max(1)) as u32,
        _ => 0,
    }
}

fn random_input(random: &mut Random) -> Input {
    let sheet = make::sheet(random);
    let blocks = if random.once_in(60) {
        0
    } else {
        random.between(1, 7)
    };
    let script = Maker {
        random,
        sheet: sheet.clone(),
        blocks,
    }
    .script();
    Input {
        sheet,
        setup: setup(random, blocks),
        script,
    }
}

/// A script with tests before its writes.
fn decisions(random: &mut Random) -> Input {
    let sheet = make::sheet(random);
    let blocks = random.between(2, 8);
    let script = Maker {
        random,
        sheet: sheet.clone(),
        blocks,
    }
    .decisions();
    Input {
        sheet,
        setup: 0,
        script,
    }
}

/// A shop compiled at some code block of a small script.
fn compiled(random: &mut Random) -> Input {
    let sheet = make::sheet(random);
    let blocks = random.between(1, 2);
    let mut maker = Maker {
        random,
        sheet: sheet.clone(),
        blocks,
    };
    let mut script = maker.script();
    let at = maker.block();
    script.blocks[at] = Block::Code(Code::default());
    let shop = maker.shop();
    calls::compile(&sheet, &mut script, at, &shop).expect("the shop fits the sheet");
    Input {
        sheet,
        setup: at as u32,
        script,
    }
}

/// A compiled shop that was changed in one place.
fn changed(random: &mut Random) -> Input {
    let mut input = compiled(random);
    let blocks = input.script.blocks.len();
    let mut maker = Maker {
        random,
        sheet: input.sheet.clone(),
        blocks,
    };
    let at = maker.block();
    let new_block = maker.any_block(at);
    let new_commands = maker.commands();
    let target = maker.block();
    let Block::Code(code) = &mut input.script.blocks[at] else {
        return input;
    };
    match maker.random.below(8) {
        0 => input.script.blocks[at] = new_block,
        1 => code.next = Some(target),
        2 => code.else_block = Some(target),
        3 => std::mem::swap(&mut code.next, &mut code.else_block),
        4 => {
            code.commands.pop();
        }
        5 => code.commands.extend(new_commands),
        _ => change_expression(&mut maker, &mut input.script),
    }
    input
}

/// All whole expressions of a script.
fn expressions(script: &mut Script) -> Vec<&mut Expr> {
    let mut all = Vec::new();
    for block in &mut script.blocks {
        let Block::Code(code) = block else { continue };
        for command in &mut code.commands {
            match command {
                Command::Set(Target::Variable(target), value) => all.extend([target, value]),
                Command::Set(Target::Other, value) => all.push(value),
                Command::If(condition, _) => all.push(condition),
                _ => (),
            }
        }
    }
    all
}

/// Some node of an expression.
fn node<'e>(random: &mut Random, expr: &'e mut Expr) -> &'e mut Expr {
    if random.once_in(3) {
        return expr;
    }
    match expr {
        Expr::Binary(_, left, right) => {
            let side = if random.once_in(2) { left } else { right };
            node(random, side)
        }
        Expr::Unary(_, operand) => node(random, operand),
        leaf => leaf,
    }
}

/// Puts something else in the place of one expression node.
fn change_expression(maker: &mut Maker, script: &mut Script) {
    let mut all = expressions(script);
    if all.is_empty() {
        return;
    }
    let chosen = maker.random.below(all.len());
    let place = node(maker.random, all.swap_remove(chosen));
    *place = if maker.random.once_in(2) {
        maker.any(1)
    } else {
        maker.condition(1)
    };
}

/// A code block without an else.
fn block(commands: Vec<Command>, next: Option<usize>) -> Block {
    Block::Code(Code {
        commands,
        next,
        else_block: None,
    })
}

/// A chain of hiding blocks whose conditions bring a slot to about as many requirements as it may
/// have, with a block that is not code before or behind the end.
fn many_requirements(random: &mut Random) -> Input {
    let sheet = make::sheet(random);
    let mut maker = Maker {
        random,
        sheet: sheet.clone(),
        blocks: 5,
    };
    let flags = maker.random.between(ENTRIES - 3, ENTRIES + 3);
    let part = maker.random.between(1, flags - 1);
    let first = maker.random.pick(&[flags, part]);
    let condition = many(&mut maker, 0, first);
    // Pairs drop within one condition only: under the contrary one a slot gathers both.
    let other = if maker.random.once_in(6) {
        Expr::unary(Unary::Not, condition.clone())
    } else {
        many(&mut maker, first, flags)
    };
    let mut blocks = Vec::new();
    for (place, condition) in [condition, other].into_iter().enumerate() {
        blocks.push(block(vec![Command::If(condition, 0)], Some(2 * place + 1)));
        blocks.push(block(hide(), Some(2 * place + 2)));
    }
    blocks.push(match maker.random.below(4) {
        0 => Block::Placeholder,
        1 => Block::Data,
        _ => Block::Code(Code::default()),
    });
    if maker.random.once_in(6) {
        blocks[maker.random.between(1, 4)] = Block::Placeholder;
    }
    Input {
        sheet,
        setup: 0,
        script: Script { blocks },
    }
}

fn hide() -> Vec<Command> {
    let set =
        |variable, value| Command::Set(Target::Variable(Expr::Imm16(variable)), Expr::Imm16(value));
    vec![set(600, -1), set(620, 0)]
}

/// Tests of the flags from `first` to before `end`, with a contradiction now and then.
fn many(maker: &mut Maker, first: usize, end: usize) -> Expr {
    let mut all = maker.constant(1);
    for flag in first..end {
        let number = maker.constant(flag as i32);
        let mut test = Expr::unary(Unary::Flag, number);
        if maker.random.once_in(5) {
            test = Expr::unary(Unary::Not, test);
        }
        if maker.random.once_in(25) {
            let against = Expr::unary(Unary::Not, test.clone());
            test = Expr::binary(Binary::BitAnd, test, against);
        }
        all = Expr::binary(
            maker.random.pick(&[Binary::BitAnd, Binary::BitOr]),
            all,
            test,
        );
    }
    all
}

/// A tower of about the largest depth over one flag.
fn tower(maker: &mut Maker) -> Expr {
    let mut expr = maker.constant(1);
    // Nothing is read from a join under a comparison, so the comparisons come first.
    let comparisons = maker.random.below(66);
    for depth in 1..maker.random.between(62, 65) {
        let side = maker.constant(0);
        expr = match maker.random.below(3) {
            _ if depth == 1 => Expr::unary(Unary::Flag, expr),
            _ if depth < comparisons => {
                let kind = maker.random.pick(&[Binary::Equal, Binary::Greater]);
                Expr::binary(kind, expr, side)
            }
            0 => Expr::binary(Binary::BitAnd, expr, side),
            1 => Expr::binary(Binary::BitOr, side, expr),
            _ => Expr::unary(Unary::Not, expr),
        };
    }
    expr
}

/// A tower in any of the three places that an expression may have.
fn deep(random: &mut Random) -> Input {
    let sheet = make::sheet(random);
    let mut maker = Maker {
        random,
        sheet: sheet.clone(),
        blocks: 2,
    };
    let expr = tower(&mut maker);
    let command = match maker.random.below(4) {
        0 => Command::Set(Target::Variable(expr), Expr::Other),
        1 => Command::Set(Target::Other, expr),
        _ => Command::If(expr, 0),
    };
    let blocks = vec![block(vec![command], Some(1)), block(hide(), None)];
    Input {
        sheet,
        setup: 0,
        script: Script { blocks },
    }
}

/// A number at or past the edge of its range.
fn edge(random: &mut Random) -> Vec<u8> {
    match random.below(3) {
        0 => stray_link(random),
        1 => large_count(random),
        _ => bad_sheet(random),
    }
}

/// An input in which some block is named whose number is the count of blocks, or just below it.
fn stray_link(random: &mut Random) -> Vec<u8> {
    let mut input = random_input(random);
    let count = input.script.blocks.len();
    if count == 0 {
        return slots::write(&input);
    }
    let named = if random.once_in(4) { count - 1 } else { count };
    let place = random.below(count);
    let mut code = Code {
        commands: hide(),
        next: Some(0),
        else_block: Some(0),
    };
    match random.below(5) {
        0 => code.commands.push(Command::Goto(named)),
        1 => code.commands.push(Command::EndIf(named)),
        2 => code.commands.push(Command::If(Expr::Imm16(1), named)),
        3 => code.next = Some(named),
        _ => code.else_block = Some(named),
    }
    input.script.blocks[place] = Block::Code(code);
    slots::write(&input)
}

/// An image that ends with a declared count at or just past its limit, so it is 2 or 3.
fn large_count(random: &mut Random) -> Vec<u8> {
    let input = Input {
        script: Script::default(),
        ..random_input(random)
    };
    let mut bytes = slots::write(&input);
    bytes.pop();
    let past = random.below(2) as u32;
    if random.once_in(2) {
        put_number(&mut bytes, BLOCKS as u32 + past);
    } else {
        // One command in a first block counts too.
        bytes.extend([2, 1, 1, 5, 0, 0, 1]);
        put_number(&mut bytes, COMMANDS as u32 - 1 + past);
    }
    bytes
}

/// A sheet with one number at or past the edge of its range.
fn bad_sheet(random: &mut Random) -> Vec<u8> {
    let input = random_input(random);
    let items = input.sheet.items();
    let mut numbers: Vec<u32> = vec![items as u32, input.sheet.atcs.into()];
    numbers.extend(
        input
            .sheet
            .atc_of
            .iter()
            .map(|a| a.map_or(0, |a| u32::from(a) + 1)),
    );
    numbers.extend(input.sheet.timers.map(u32::from));
    let place = random.pick(&[0, 1, 2, items + 1, items + 2, items + 3, items + 4]);
    numbers[place] = match place {
        0 => random.pick(&[0, 2, 3, 512, 513, u32::MAX]),
        1 => random.pick(&[0, 1, 64, 65, u32::MAX]),
        _ if place <= items + 1 => u32::from(input.sheet.atcs) + random.below(3) as u32,
        _ if random.once_in(2) => items as u32 - random.below(2) as u32,
        _ => input.sheet.timers[random.below(3)].into(),
    };
    let mut out = Vec::new();
    for number in numbers {
        put_number(&mut out, number);
    }
    out.extend(&slots::write(&input)[sheet_length(&input)..]);
    out
}

fn sheet_length(input: &Input) -> usize {
    let mut sheet = Vec::new();
    slots::put_sheet(&mut sheet, &input.sheet);
    sheet.len()
}

/// A good input with its bytes damaged in one to three places.
fn damaged(random: &mut Random) -> Vec<u8> {
    let kind = random.pick(&[0, 1, 4, 5, 6, 7]);
    let mut bytes = input(random, kind);
    for _ in 0..random.pick(&[1, 1, 1, 2, 3]) {
        damage(random, &mut bytes);
    }
    bytes
}

/// Damages bytes in one place.
pub fn damage(random: &mut Random, bytes: &mut Vec<u8>) {
    let place = random.below(bytes.len() + 1);
    if place == bytes.len() {
        bytes.push(random.byte());
        return;
    }
    match random.below(7) {
        0 => bytes.truncate(place),
        1 => bytes.insert(place, random.byte() & 0x1F),
        2 => {
            bytes.remove(place);
        }
        3 => bytes[place] ^= 1 << random.below(8),
        4 => bytes[place] = random.byte() & 0x1F,
        5 => {
            // A number that is not shortest, or too wide.
            bytes[place] |= 0x80;
            let tail: &[u8] = random.pick(&[&[0x00][..], &[0x80, 0x80, 0x80, 0x10], &[0x01]]);
            bytes.splice(place + 1..place + 1, tail.iter().copied());
        }
        _ => bytes[place] = bytes[place].wrapping_add(1),
    }
}

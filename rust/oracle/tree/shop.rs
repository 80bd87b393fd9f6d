// The module shop: the original text as it stands, and beside its two children our way in.

include!("../original/shop/mod.rs");

/// Calls that the original keeps to its own module, with the setup block given by the caller.
pub mod access {
    use super::{BlockId, Script, ShopCompiler, ShopParser, Slot};

    pub fn parse(script: &Script, setup: BlockId) -> Vec<Slot> {
        ShopParser::new(script).parse(setup)
    }

    pub fn compile(script: &mut Script, slots: &[Slot], setup: BlockId) {
        ShopCompiler::new(script).compile(slots).replace(setup);
    }
}

// Stand-ins for the writer of script files, which no call here needs.

pub struct BlockOffsetMap;
pub struct ScriptWriter;

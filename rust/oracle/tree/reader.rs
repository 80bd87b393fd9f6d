// A stand-in for the reader of script files, which no call here needs.

pub struct ScriptReader;

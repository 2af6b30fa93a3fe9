//! Where operations on two cells meet handles in the files compared.
use independent::bound::{explored, Event};
use independent::machine::Handles;
use independent::report::Answer;
use independent::routine::read;

/// Numbers of files.
#[derive(Default)]
pub struct Compared {
    /// accepted by the bound: EQ or NEQ of two handles of one block, of two blocks
    equal: u64,
    unlike: u64,
    /// accepted by the run too
    runs: u64,
    /// stuck: another operation on two handles, a handle and another cell
    others: u64,
    beside: u64,
}

impl Compared {
    pub fn note(&mut self, text: &[u8], bound: &Answer, of_run: &Answer) {
        let Ok(routine) = read(text, false) else {
            return;
        };
        let (mut equal, mut unlike, mut others, mut beside) = (false, false, false, false);
        let _ = explored(&routine, routine.start.clone(), |event| {
            if let Event::Met { handles, stuck } = event {
                equal |= !stuck && handles == Handles::Equal;
                unlike |= !stuck && handles == Handles::Unlike;
                others |= stuck && handles != Handles::WithAnother;
                beside |= stuck && handles == Handles::WithAnother;
            }
        });
        self.equal += (equal && bound.is_ok()) as u64;
        self.unlike += (unlike && bound.is_ok()) as u64;
        self.runs += ((equal || unlike) && bound.is_ok() && of_run.is_ok()) as u64;
        self.others += others as u64;
        self.beside += beside as u64;
    }

    pub fn counts(&self) -> [(&'static str, u64); 5] {
        [
            ("EQ or NEQ of equal handles", self.equal),
            ("EQ or NEQ of unlike handles", self.unlike),
            ("handles compared in a run", self.runs),
            ("stuck at another operation on two handles", self.others),
            ("stuck at a handle beside another cell", self.beside),
        ]
    }
}

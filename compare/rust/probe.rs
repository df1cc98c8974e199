
// The probe: it is put below the original text when the judge is built, and gives the driver the private fields and `step`.
pub struct Parts<'a, T> {
    pub device: &'a mut T,
    pub pointer: &'a mut usize,
    pub register: &'a mut Vec<i64>,
    pub cells: &'a mut Vec<i64>,
    pub functions: &'a mut Vec<usize>,
    pub calls: &'a mut Vec<usize>,
    pub refs: &'a mut Vec<usize>,
    pub i: &'a mut usize,
    pub done: &'a mut bool,
}

impl<T: Device> StandardInterpreter<T> {
    pub fn parts(&mut self) -> Parts<'_, T> {
        Parts {
            device: &mut self.device,
            pointer: &mut self.pointer,
            register: &mut self.register,
            cells: &mut self.cells,
            functions: &mut self.functions,
            calls: &mut self.calls,
            refs: &mut self.refs,
            i: &mut self.i,
            done: &mut self.done,
        }
    }

    pub fn one_step(&mut self, code: &StandardProgram) -> Result<(), String> {
        self.step(code)
    }
}

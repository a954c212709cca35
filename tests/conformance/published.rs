//! The messages that RFC 7516 and RFC 7520 print: each recipient, and in general messages one past the last.

use crate::list::{Cases, ALGS};
use crate::FORMS;
use std::path::Path;

impl Cases {
    pub fn published(&mut self) {
        let vectors = Path::new(file!()).parent().expect("a directory").join("../vectors");
        let index = std::fs::read_to_string(vectors.join("INDEX.md")).expect("the index of the published messages");
        let mut count = 0;
        for row in index.lines().filter(|line| line.contains(".jwe |")) {
            let columns: Vec<&str> = row.split('|').map(str::trim).collect();
            let [_, file, section, form, algs, _, recipients, _, _] = columns[..] else { panic!("{row}") };
            let message = std::fs::read(vectors.join(file)).expect(file);
            let form = FORMS.iter().position(|name| *name == form).expect("a form");
            let recipients: u32 = recipients.parse().expect("a number");
            // RFC 7520 prints a message in up to three forms under one section; two printed as general are flattened.
            let printed = file.rsplit('-').next().and_then(|end| end.strip_suffix(".jwe")).expect("a form");
            for (recipient, alg) in algs.split(", ").enumerate() {
                let what = format!("{section}, printed as {printed}, recipient {recipient}, {alg}");
                let (mode, _) = ALGS.into_iter().find(|(_, listed)| *listed == alg).expect("a listed alg");
                self.of_form(form, 0, what, message.clone()).asking(digit(recipient)).in_mode(recipients, mode);
            }
            if form == 2 {
                let what = format!("{section}, recipient {recipients} of {recipients}");
                self.of_form(form, 19, what, message).asking(digit(recipients as usize));
            }
            count += 1;
        }
        assert_eq!(count, 37, "published messages");
    }
}

fn digit(recipient: usize) -> char {
    char::from_digit(recipient as u32, 10).expect("a digit")
}

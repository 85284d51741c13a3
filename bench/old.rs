//! The Rust of `oracle/tiberius` on the work that it can do: headers and descriptors both ways, rows and texts written. It has no reader of rows
//! here, no normal form, and no text back.
use crate::work::{Task, Work};
use tiberius::error::bench::{self, Buffer};

/// A pass by tiberius, and the bytes that it wrote, or what it read written again.
pub struct Old<'a> {
    pass: Box<dyn FnMut(&mut Buffer) + 'a>,
    out: Buffer,
}

impl<'a> Old<'a> {
    pub fn of(work: &'a Work) -> Option<Old<'a>> {
        let pass: Box<dyn FnMut(&mut Buffer) + 'a> = match work.task {
            Task::HeaderRead => {
                let mut headers = bench::no_headers();
                Box::new(move |_| bench::headers_read(&work.bytes, &mut headers))
            }
            Task::HeaderWrite => {
                let mut headers = bench::no_headers();
                bench::headers_read(&work.bytes, &mut headers);
                Box::new(move |out| bench::headers_written(&headers, out))
            }
            Task::ColumnRead => {
                let mut types = bench::types(&[]);
                Box::new(move |_| bench::types_read(&work.bytes, &mut types))
            }
            Task::ColumnWrite => {
                let types = bench::types(&work.table);
                Box::new(move |out| bench::types_written(&types, out))
            }
            Task::RowWrite => {
                let values = bench::values(&work.table, &work.values, &work.bytes);
                let count = work.calls * work.table.len() / 16;
                Box::new(move |out| bench::values_written(&values, count, out))
            }
            Task::ToUtf16 => {
                let texts = bench::texts(&work.bytes, work.step);
                Box::new(move |out| bench::values_written(&texts, work.calls, out))
            }
            Task::ToUtf8 | Task::RowRead | Task::RowNormal => return None,
        };
        Some(Old { pass, out: Buffer::with_capacity(2 * work.size + (1 << 17)) })
    }

    pub fn run(&mut self) {
        (self.pass)(&mut self.out);
    }
}

/// Whether tiberius writes the same bytes; what it reads is written again and compared.
pub fn same(work: &Work, codec: &[u8]) -> bool {
    let mut out = Buffer::new();
    match work.task {
        Task::HeaderRead => {
            let mut headers = bench::no_headers();
            bench::headers_read(&work.bytes, &mut headers);
            bench::headers_written(&headers, &mut out);
            out[..] == work.bytes[..]
        }
        Task::ColumnRead => {
            let mut types = bench::types(&[]);
            bench::types_read(&work.bytes, &mut types);
            bench::types_written(&types, &mut out);
            out[..] == work.bytes[..]
        }
        Task::ToUtf8 | Task::RowRead | Task::RowNormal => true,
        _ => {
            let mut old = Old::of(work).expect("a pass");
            old.run();
            if work.task == Task::ToUtf16 {
                // Behind its length of two bytes, each text is what the codec wrote.
                let length = codec.len() / work.calls;
                old.out.chunks(2 + length).map(|text| &text[2..]).eq(codec.chunks(length))
            } else {
                old.out[..] == *codec
            }
        }
    }
}

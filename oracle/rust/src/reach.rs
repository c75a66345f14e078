// Stands as parser/buffer/reach.rs, below the module whose fields it reads: it makes the Rust's
// iterators at any state and reads their numbers, and calls none of the compared functions but
// `len` and `potential_lost_bytes`.
use super::super::{UbxParserIter, UbxRtcmNmeaParserIter, UbxRtcmParserIter};
use super::{DualBuffer, FixedLinearBuffer};
use crate::{Holding, Numbers, Reach, UbxProtocol};
use core::marker::PhantomData;

impl<'b> Holding<'b> for FixedLinearBuffer<'b> {
    fn holding(carry: &'b mut [u8], live: usize) -> Self {
        Self { buffer: carry, len: live }
    }
}

macro_rules! reach {
    ($iterator:ident) => {
        impl<'a, 'b, P: UbxProtocol> Reach<'a, 'b> for $iterator<'a, FixedLinearBuffer<'b>, P> {
            type Carry = FixedLinearBuffer<'b>;

            fn at(
                carry: &'a mut FixedLinearBuffer<'b>,
                off: usize,
                chunk: &'a [u8],
                part_used: usize,
            ) -> Self {
                let buf = DualBuffer { buf: carry, off, new_buf: chunk, new_buf_offset: part_used };
                Self { buf, _phantom: PhantomData }
            }

            fn numbers(&self) -> Numbers {
                Numbers {
                    live: self.buf.buf.len,
                    off: self.buf.off,
                    part_used: self.buf.new_buf_offset,
                    window: self.buf.len(),
                    would_lose: self.buf.potential_lost_bytes(),
                }
            }
        }
    };
}

reach!(UbxParserIter);
reach!(UbxRtcmParserIter);
reach!(UbxRtcmNmeaParserIter);

//! What `status` prints behind its answer line.

use crate::calls::Status;
use std::fmt::{self, Display, Formatter};

impl Display for Status {
    fn fmt(&self, output: &mut Formatter) -> fmt::Result {
        let Status { allocated, available, allocating, freeing, held, active } = self;
        write!(output, "allocated={allocated} available={available} allocating={allocating} ")?;
        writeln!(output, "freeing={freeing} held={held} active={active}")
    }
}

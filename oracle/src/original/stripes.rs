//! The original's own stripes, in document 02's numbers.

use super::opening::Opened;
use super::opening::said;
use crate::rules::Said;
use crate::rules::stripes::{OF_GROUP, OF_STRIPE, halves};

impl Opened<'_> {
    /// Groups, stripes, chunk numbers. The original counts stripes from the first one on, and chunk numbers from the first one on.
    pub fn stripes(&self) -> Vec<u32> {
        let (groups, stripes, chunks) = self.reader.stripes();
        let stripes_at = OF_GROUP * groups.len() as u64;
        let chunks_at = stripes_at + OF_STRIPE * stripes.len() as u64;
        let mut out = Vec::new();
        for (least, height, k, first) in groups {
            let [low, high] = halves(stripes_at + OF_STRIPE * u64::from(first));
            out.extend(if k == 0 { [0; 5] } else { [least as u32, height, k, low, high] });
        }
        for &(first, count) in stripes {
            let [low, high] = halves(chunks_at + u64::from(first));
            out.extend([low, high, count]);
        }
        out.extend(chunks.iter().map(|&chunk| u32::from(chunk)));
        out
    }

    /// Builds them anew.
    pub fn build_stripes(&mut self) -> Said<()> {
        said(|| self.reader.build_stripes())
    }
}

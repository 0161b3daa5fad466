
// ---- added after the original's text: what its private parts say ----

pub(crate) fn parity(a: I32Point, b: I32Point, py: f64) -> bool {
    endpoint_parity(a, b, py)
}

impl<'a> Reader<'a> {
    /// The same opened file, asked with other bytes.
    pub(crate) fn with_bytes(self, data: &'a [u8]) -> Self {
        Self { data: Cow::Borrowed(data), ..self }
    }
}

impl Reader<'_> {
    pub(crate) fn ask_candidates(&self, lng: f64, lat: f64) -> Result<(u32, u32, bool), Error> {
        self.candidates(lng, lat)
    }

    pub(crate) fn ask_candidate(&self, place: u32) -> Result<u32, Error> {
        self.candidate_at(place)
    }

    pub(crate) fn ask_contains(&self, zone: u32, x: f64, y: f64) -> Result<bool, Error> {
        self.timezone_contains(zone, x, y)
    }

    /// For each group its least y, height, number of stripes and first stripe; for each stripe its first chunk number and how many; all
    /// chunk numbers.
    pub(crate) fn stripes(&self) -> (Vec<(i32, u32, u32, u32)>, &[(u32, u32)], &[u16]) {
        let group = |g: &GroupStripes| (g.y_min, g.height, g.k, g.first);
        (self.group_stripes.iter().map(group).collect(), &self.stripe_dir, &self.stripe_chunks)
    }

    /// Builds the stripes anew; the sums of the groups' points are looked at on the way.
    pub(crate) fn build_stripes(&mut self) -> Result<(), Error> {
        self.validate_groups()
    }
}

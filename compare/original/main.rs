// Answers the test vectors of crates/float_vectors/stdin with the functions of the Rust crate glifo 0.4.0.
//
// The modules glyph, key, util, region and renderer hold items of glifo's files of these names, word for word but for the
// `use` lines and the indentation. They have glifo's licence, Apache-2.0 OR MIT, and its copyright lines.
// The module stand_ins has the little that they need of other crates, and the rest is not glifo's: the module domain says
// which inputs the port answers, and what follows it reads the vectors and writes the answers.

use std::fmt;
use std::io::{self, BufRead, Write};

/// What the items below take from kurbo, peniko, skrifa and smallvec: the same names, as much as is used.
#[allow(dead_code)]
mod stand_ins {
    /// (x, y) goes to (ax + cy + e, bx + dy + f), for the six coefficients a to f.
    #[derive(Clone, Copy, Debug)]
    pub struct Affine(pub [f64; 6]);

    impl Affine {
        pub fn as_coeffs(self) -> [f64; 6] {
            self.0
        }

        pub fn is_finite(&self) -> bool {
            self.0.iter().all(|c| c.is_finite())
        }
    }

    #[derive(Clone, Copy, Debug)]
    pub struct Rect {
        pub x0: f64,
        pub y0: f64,
        pub x1: f64,
        pub y1: f64,
    }

    impl Rect {
        pub fn scale_from_origin(self, factor: f64) -> Rect {
            Rect {
                x0: self.x0 * factor,
                y0: self.y0 * factor,
                x1: self.x1 * factor,
                y1: self.y1 * factor,
            }
        }

        pub fn is_finite(&self) -> bool {
            self.x0.is_finite() && self.x1.is_finite() && self.y0.is_finite() && self.y1.is_finite()
        }
    }

    #[derive(Clone, Copy, Debug)]
    pub struct Diagonal2 {
        pub xx: f64,
        pub yy: f64,
    }

    #[derive(Clone, Copy, Debug)]
    pub enum Join {
        Bevel,
        Miter,
        Round,
    }

    #[derive(Clone, Copy, Debug)]
    pub struct Srgb;

    #[derive(Clone, Copy, Debug)]
    pub struct AlphaColor<C>(pub [f32; 4], pub C);

    /// The bits of a signed number with 14 binary places.
    pub type NormalizedCoord = i16;

    #[derive(Clone, Debug)]
    pub struct SmallVec<A>(Vec<NormalizedCoord>, std::marker::PhantomData<A>);

    impl<A> SmallVec<A> {
        pub fn from_slice(items: &[NormalizedCoord]) -> Self {
            SmallVec(items.to_vec(), std::marker::PhantomData)
        }
    }
}

// Copyright 2025 the Vello Authors and the Parley Authors
// SPDX-License-Identifier: Apache-2.0 OR MIT
/// From src/glyph.rs.
#[allow(dead_code)]
mod glyph {
    use crate::stand_ins::{Diagonal2, Join, Rect};

    /// Synthetic embolden settings for a glyph run.
    #[derive(Clone, Copy, Debug)]
    pub struct FontEmbolden {
        /// Synthetic embolden amount.
        pub amount: Diagonal2,
        /// Join style used when expanding outlines.
        pub join: Join,
        /// Miter limit used when expanding outlines.
        pub miter_limit: f64,
        /// Tolerance used when expanding outlines.
        pub tolerance: f64,
    }

    /// Type hint for cached glyph rendering.
    ///
    /// Used when rendering directly from the atlas cache to skip glyph preparation.
    #[derive(Debug, Clone, Copy)]
    pub(crate) enum CachedGlyphType {
        /// An outline glyph cached in the atlas.
        Outline,
        /// A bitmap glyph cached in the atlas.
        Bitmap,
        /// A COLR glyph cached in the atlas.
        /// The `Rect` parameter contains the fractional area dimensions
        /// to preserve sub-pixel accuracy during rendering.
        Colr(Rect),
    }
}

// Copyright 2026 the Vello Authors
// SPDX-License-Identifier: Apache-2.0 OR MIT
/// From src/atlas/key.rs. The last function is private there.
#[allow(dead_code)]
mod key {
    use crate::glyph::FontEmbolden;
    use crate::stand_ins::{AlphaColor, Join, NormalizedCoord, SmallVec, Srgb};
    use std::hash::{Hash, Hasher};

    /// Number of horizontal subpixel quantization buckets (valid range: 1–253).
    ///
    /// Higher values improve rendering quality at the cost of more atlas entries
    /// per glyph. Common values: 1 (disabled), 2, 4 (default), 8.
    pub(crate) const SUBPIXEL_BUCKETS: u8 = 4;

    /// Sentinel `subpixel_x` for COLR glyph cache entries.
    ///
    /// `quantize_subpixel` returns values in `0..SUBPIXEL_BUCKETS`, so values
    /// above that range can never appear in an outline key. Using distinct
    /// sentinels for COLR and bitmap entries prevents cache collisions between
    /// glyph types that would otherwise produce identical keys (same font, glyph
    /// id, size, and color).
    pub(crate) const SUBPIXEL_COLR: u8 = SUBPIXEL_BUCKETS;

    /// Sentinel `subpixel_x` for bitmap glyph cache entries. See [`SUBPIXEL_COLR`].
    pub(crate) const SUBPIXEL_BITMAP: u8 = SUBPIXEL_BUCKETS + 1;

    /// Unique identifier for a cached glyph bitmap.
    ///
    /// Two glyphs with the same key are visually identical and can share
    /// the same cached bitmap. The key includes all parameters that affect
    /// the glyph's appearance.
    ///
    /// `var_coords` is deliberately excluded from `Hash`/`Eq` because the
    /// [`GlyphAtlas`](crate::atlas::cache::GlyphAtlas) uses a two-level map
    /// structure that already partitions entries by variation coordinates.
    /// Callers that use a flat map must ensure equivalent `var_coords`
    /// externally.
    #[derive(Clone, Debug)]
    pub struct GlyphCacheKey {
        /// Unique identifier for the font blob.
        pub font_id: u64,
        /// Index within font collection (for TTC files).
        pub font_index: u32,
        /// Glyph index within the font.
        pub glyph_id: u32,
        /// Font size as f32 bits (exact match, no quantization).
        pub size_bits: u32,
        /// Whether hinting was applied.
        pub hinted: bool,
        /// Horizontal subpixel position (0 to SUBPIXEL_BUCKETS-1 for outlines),
        /// or a sentinel (`SUBPIXEL_COLR` / `SUBPIXEL_BITMAP`) for non-outline glyphs.
        pub subpixel_x: u8,
        /// Context color for COLR glyphs. Only used for rendering, not for Hash/Eq.
        pub context_color: AlphaColor<Srgb>,
        /// Pre-packed context color (premultiplied RGBA8 as u32) used in Hash/Eq.
        pub context_color_packed: u32,
        /// Synthetic embolden amount. Only non-zero for outline glyphs.
        pub embolden_x_bits: u32,
        /// Synthetic embolden amount. Only non-zero for outline glyphs.
        pub embolden_y_bits: u32,
        /// Join style for synthetic embolden. Only meaningful for outline glyphs.
        pub embolden_join_bits: u8,
        /// Miter limit for synthetic embolden. Only meaningful for outline glyphs.
        pub embolden_miter_limit_bits: u32,
        /// Tolerance for synthetic embolden. Only meaningful for outline glyphs.
        pub embolden_tolerance_bits: u32,
        /// Variation coordinates for variable fonts.
        pub var_coords: SmallVec<[NormalizedCoord; 4]>,
    }

    impl GlyphCacheKey {
        /// Creates a new cache key.
        ///
        /// `fractional_x` (the fractional pixel offset) is quantized into
        /// `SUBPIXEL_BUCKETS` buckets, so nearby positions share the same entry.
        #[inline]
        pub fn new(
            font_id: u64,
            font_index: u32,
            glyph_id: u32,
            size: f32,
            hinted: bool,
            fractional_x: f32,
            context_color: AlphaColor<Srgb>,
            context_color_packed: u32,
            embolden: FontEmbolden,
            var_coords: &[NormalizedCoord],
        ) -> Self {
            Self {
                font_id,
                font_index,
                glyph_id,
                size_bits: size.to_bits(),
                hinted,
                subpixel_x: quantize_subpixel(fractional_x),
                context_color,
                context_color_packed,
                embolden_x_bits: f32_bits(embolden.amount.xx),
                embolden_y_bits: f32_bits(embolden.amount.yy),
                embolden_join_bits: join_bits(embolden.join),
                embolden_miter_limit_bits: f32_bits(embolden.miter_limit),
                embolden_tolerance_bits: f32_bits(embolden.tolerance),
                var_coords: SmallVec::from_slice(var_coords),
            }
        }
    }

    /// Manual `Hash` and `PartialEq` use the pre-packed `context_color_packed` field
    /// (a premultiplied RGBA8 `u32`) instead of `AlphaColor<Srgb>`, which doesn't
    /// implement `Hash`/`Eq`. Packing once at construction avoids repeated work
    /// during lookups. `glyph_id` is compared first for early short-circuit.
    impl Hash for GlyphCacheKey {
        #[inline]
        fn hash<H: Hasher>(&self, state: &mut H) {
            self.font_id.hash(state);
            self.font_index.hash(state);
            self.glyph_id.hash(state);
            self.size_bits.hash(state);
            self.hinted.hash(state);
            self.subpixel_x.hash(state);
            self.context_color_packed.hash(state);
            self.embolden_x_bits.hash(state);
            self.embolden_y_bits.hash(state);
            self.embolden_join_bits.hash(state);
            self.embolden_miter_limit_bits.hash(state);
            self.embolden_tolerance_bits.hash(state);
        }
    }

    impl PartialEq for GlyphCacheKey {
        #[inline]
        fn eq(&self, other: &Self) -> bool {
            self.glyph_id == other.glyph_id
                && self.subpixel_x == other.subpixel_x
                && self.font_id == other.font_id
                && self.font_index == other.font_index
                && self.size_bits == other.size_bits
                && self.hinted == other.hinted
                && self.context_color_packed == other.context_color_packed
                && self.embolden_x_bits == other.embolden_x_bits
                && self.embolden_y_bits == other.embolden_y_bits
                && self.embolden_join_bits == other.embolden_join_bits
                && self.embolden_miter_limit_bits == other.embolden_miter_limit_bits
                && self.embolden_tolerance_bits == other.embolden_tolerance_bits
        }
    }

    impl Eq for GlyphCacheKey {}

    #[inline(always)]
    fn join_bits(join: Join) -> u8 {
        match join {
            Join::Bevel => 0,
            Join::Miter => 1,
            Join::Round => 2,
        }
    }

    #[expect(
        clippy::cast_possible_truncation,
        reason = "Cache keys intentionally store embolden parameters at f32 precision."
    )]
    #[inline(always)]
    fn f32_bits(value: f64) -> u32 {
        (value as f32).to_bits()
    }

    /// Quantize a fractional pixel offset into one of [`SUBPIXEL_BUCKETS`] buckets.
    ///
    /// Values near 1.0 (>= 0.875 with 4 buckets) are clamped to the last bucket
    /// rather than wrapping to 0. Wrapping to bucket 0 without also incrementing the
    /// integer pixel coordinate would shift the glyph by ~0.75px in the wrong
    /// direction. Clamping keeps the worst-case error to 0.125px.
    #[expect(
        clippy::cast_possible_truncation,
        reason = "result is clamped to SUBPIXEL_BUCKETS-1 which fits in u8"
    )]
    #[inline]
    pub(crate) fn quantize_subpixel(frac: f32) -> u8 {
        let normalized = frac.fract();
        let normalized = if normalized < 0.0 {
            normalized + 1.0
        } else {
            normalized
        };
        ((normalized * SUBPIXEL_BUCKETS as f32).round() as u8).min(SUBPIXEL_BUCKETS - 1)
    }
}

// Copyright 2025 the Vello Authors and the Parley Authors
// SPDX-License-Identifier: Apache-2.0 OR MIT
/// From src/util.rs.
#[allow(dead_code)]
#[rustfmt::skip]
mod util {
    use crate::stand_ins::Affine;

    // From <https://github.com/linebender/tiny-skia/blob/68b198a7210a6bbf752b43d6bc4db62445730313/path/src/scalar.rs#L12>
    const SCALAR_NEARLY_ZERO_F64: f64 = 1.0 / (1 << 12) as f64;

    pub(crate) trait AffineExt {
        /// Whether the transform has any skewing coefficient.
        fn has_skew(&self) -> bool;

        /// Whether the transform has a vertical skew.
        fn has_vertical_skew(&self) -> bool;

        /// Whether the transform has positive, uniform scaling factors and no skew.
        fn is_positive_uniform_scale_without_skew(&self) -> bool;

        /// Whether the transform has positive, uniform scaling factors and no vertical skew.
        fn is_positive_uniform_scale_without_vertical_skew(&self) -> bool;

        /// Whether the transform has non-unit scale or skew.
        ///
        /// Note that negative scales (i.e. -1.0) are explicitly allowed.
        fn has_non_unit_skew_or_scale(&self) -> bool;
    }

    impl AffineExt for Affine {
        #[inline]
        fn has_skew(&self) -> bool {
            let [_, b, c, _, _, _] = self.as_coeffs();
            b.abs() > SCALAR_NEARLY_ZERO_F64 || c.abs() > SCALAR_NEARLY_ZERO_F64
        }

        #[inline]
        fn is_positive_uniform_scale_without_skew(&self) -> bool {
            let [a, _, _, d, _, _] = self.as_coeffs();
            (a - d).abs() <= SCALAR_NEARLY_ZERO_F64 && a > 0.0 && d > 0.0 && !self.has_skew()
        }

        #[inline]
        fn has_non_unit_skew_or_scale(&self) -> bool {
            let [a, _, _, d, _, _] = self.as_coeffs();
            self.has_skew()
                || (1.0 - a.abs()).abs() > SCALAR_NEARLY_ZERO_F64
                || (1.0 - d.abs()).abs() > SCALAR_NEARLY_ZERO_F64
        }

        /// Whether the transform has a vertical skew.
        #[inline]
        fn has_vertical_skew(&self) -> bool {
            let [_, b, _, _, _, _] = self.as_coeffs();
            b.abs() > SCALAR_NEARLY_ZERO_F64
        }

        #[inline]
        fn is_positive_uniform_scale_without_vertical_skew(&self) -> bool {
            let [a, _, _, d, _, _] = self.as_coeffs();
            (a - d).abs() <= SCALAR_NEARLY_ZERO_F64 && a > 0.0 && d > 0.0 && !self.has_vertical_skew()
        }
    }
}

// Copyright 2026 the Vello Authors
// SPDX-License-Identifier: Apache-2.0 OR MIT
/// From src/atlas/region.rs.
mod region {
    /// Metadata for a rasterized glyph (no pixel data).
    ///
    /// Returned by rasterization to communicate bitmap dimensions and
    /// bearing offsets.
    #[derive(Clone, Copy, Debug)]
    pub struct RasterMetrics {
        /// Width of the rasterized glyph (pixels).
        pub width: u16,
        /// Height of the rasterized glyph (pixels).
        pub height: u16,
        /// Horizontal bearing (offset from glyph origin to left edge of bitmap).
        pub bearing_x: i16,
        /// Vertical bearing (offset from glyph origin to top edge of bitmap).
        pub bearing_y: i16,
    }
}

// Copyright 2026 the Vello Authors and the Parley Authors
// SPDX-License-Identifier: Apache-2.0 OR MIT
/// From src/renderer.rs.
#[rustfmt::skip]
mod renderer {
    use crate::glyph::CachedGlyphType;
    use crate::region::RasterMetrics;
    use crate::stand_ins::{Affine, Rect};
    use crate::util::AffineExt;

    /// Calculate raster metrics (pixel bounds, bearings) from a glyph's bounding box.
    #[expect(
        clippy::cast_possible_truncation,
        reason = "glyph bounds fit in i32/u16/i16 at reasonable ppem values"
    )]
    #[inline]
    pub(crate) fn calculate_raster_metrics(bounds: &Rect) -> RasterMetrics {
        // Floor/ceil round outward from the fractional bounding box. Width gets an
        // extra pixel to accommodate the horizontal subpixel offset (up to 0.75 px)
        // applied when rasterising into the atlas; the Y axis has no subpixel shift
        // so floor/ceil alone is sufficient. GLYPH_PADDING in the atlas allocator
        // provides the guard band needed by the GPU renderer's Extend::Pad sampling.
        let min_x = bounds.x0.floor() as i32;
        let max_x = bounds.x1.ceil() as i32 + 1;

        // For Y, we flip the coordinate system: font Y up -> screen Y down
        // After flipping Y, min_y becomes -max_y and max_y becomes -min_y
        let flipped_min_y = (-bounds.y1).floor() as i32;
        let flipped_max_y = (-bounds.y0).ceil() as i32;

        let width = (max_x - min_x) as u16;
        let height = (flipped_max_y - flipped_min_y) as u16;

        RasterMetrics {
            width,
            height,
            bearing_x: min_x as i16,
            bearing_y: flipped_min_y as i16,
        }
    }

    /// Returns `true` if the transform is safe for atlas-cached glyph rendering.
    #[inline]
    pub(crate) fn supports_atlas_caching(transform: &Affine, glyph_type: CachedGlyphType) -> bool {
        // TODO: Investigate whether we can support arbitrary mirroring. From some
        // initial experiments, allowing x-mirroring leads to slightly shifted glyphs, so
        // we don't support this now. Y-mirroring also needs more consideration.

        let [a, _, _, d, _, _] = transform.as_coeffs();

        match glyph_type {
            // For those glyphs, we expect any scaling factor to have been completely absorbed. Due to the fact
            // that we had to apply a flip transform for outlines, the y-scaling factor is expected to be negative.
            CachedGlyphType::Outline | CachedGlyphType::Colr(_) => {
                !transform.has_non_unit_skew_or_scale() && a.is_sign_positive() && d.is_sign_negative()
            }
            // For bitmap glyphs, we need to relax the condition a bit, since bitmap glyphs already have a fixed
            // size and thus might not correspond 100% to the font size. Therefore, they likely don't have a unit
            // transform.
            CachedGlyphType::Bitmap => {
                !transform.has_skew() && a.is_sign_positive() && d.is_sign_positive()
            }
        }
    }
}

/// The inputs on which the port has an answer. Nothing here looks at what the functions above answer.
mod domain {
    use crate::glyph::FontEmbolden;
    use crate::stand_ins::{Affine, Rect};

    const LARGEST: i128 = 65533;

    /// Beyond this no edge gives a width, a height and a bearing in range, so none is told from another.
    const FAR: i128 = 1 << 60;

    /// A finite `x` is a whole number times a power of two: these are the two.
    fn parts(x: f64) -> (i128, i32) {
        let bits = x.to_bits();
        let exponent = (bits >> 52 & 0x7ff) as i32;
        let fraction = i128::from(bits & 0xf_ffff_ffff_ffff);
        let (size, power) = match exponent {
            0 => (fraction, -1074),
            _ => (fraction + (1 << 52), exponent - 1075),
        };
        (if bits >> 63 == 1 { -size } else { size }, power)
    }

    /// The greatest whole number not above `x`, by shifts alone; what is beyond `FAR` is cut to it.
    fn floor(x: f64) -> i128 {
        let (number, power) = parts(x);
        match power {
            0.. => (number << power.min(64)).clamp(-FAR, FAR),
            // The shift of a negative number goes to the lesser one.
            _ => number >> (-power).min(127),
        }
    }

    fn ceil(x: f64) -> i128 {
        -floor(-x)
    }

    fn is_extent(size: i128) -> bool {
        (0..=LARGEST).contains(&size)
    }

    fn is_bearing(n: i128) -> bool {
        (-32768..=32767).contains(&n)
    }

    pub fn has_key(size: f32, embolden: FontEmbolden) -> bool {
        !size.is_nan()
            && !embolden.amount.xx.is_nan()
            && !embolden.amount.yy.is_nan()
            && !embolden.miter_limit.is_nan()
            && !embolden.tolerance.is_nan()
    }

    /// Whether an outline with these bounds, in pixels, has metrics.
    pub fn has_metrics(bounds: Rect) -> bool {
        if !bounds.is_finite() || bounds.x0 > bounds.x1 || bounds.y0 > bounds.y1 {
            return false;
        }
        let left = floor(bounds.x0);
        let right = ceil(bounds.x1) + 1;
        let top = floor(-bounds.y1);
        let bottom = ceil(-bounds.y0);
        is_extent(right - left) && is_extent(bottom - top) && is_bearing(left) && is_bearing(top)
    }

    pub fn has_bitmap_metrics(width: u16, height: u16) -> bool {
        is_extent(width.into()) && is_extent(height.into())
    }

    /// Whether the test of a transform looks at finite numbers only.
    pub fn is_linear_finite(transform: Affine) -> bool {
        let [a, b, c, d, _, _] = transform.as_coeffs();
        a.is_finite() && b.is_finite() && c.is_finite() && d.is_finite()
    }
}

use glyph::{CachedGlyphType, FontEmbolden};
use key::GlyphCacheKey;
use region::RasterMetrics;
use stand_ins::{Affine, AlphaColor, Diagonal2, Join, Rect, Srgb};

enum Shape {
    Affine(Affine),
    Rect(Rect),
    Color([f32; 4]),
}

enum Vector {
    Bucket(f32),
    Narrow(f32, FontEmbolden),
    Metrics(Rect, f64),
    Bitmap(u16, u16),
    Supports(CachedGlyphType, Affine),
    Finite(Shape),
}

struct Refused(u8);

enum Answer {
    Bucket(u8),
    Narrow(Result<GlyphCacheKey, Refused>),
    Metrics(Result<RasterMetrics, Refused>),
    Bitmap(Result<RasterMetrics, Refused>),
    Supports(bool),
    Finite(bool),
}

fn outline_key(size: f32, embolden: FontEmbolden) -> GlyphCacheKey {
    let black = AlphaColor([0.0, 0.0, 0.0, 1.0], Srgb);
    GlyphCacheKey::new(1, 0, 1, size, false, 0.0, black, 0, embolden, &[])
}

/// As `insert_and_render_outline` calls it.
fn outline_metrics(bbox: Rect, scale: f64) -> Result<RasterMetrics, Refused> {
    let bounds = bbox.scale_from_origin(scale);
    if !domain::has_metrics(bounds) {
        return Err(Refused(5));
    }
    Ok(renderer::calculate_raster_metrics(&bounds))
}

/// As `insert_and_render_bitmap` makes them, which calls no function for it.
fn bitmap_metrics(width: u16, height: u16) -> Result<RasterMetrics, Refused> {
    if !domain::has_bitmap_metrics(width, height) {
        return Err(Refused(5));
    }
    Ok(RasterMetrics {
        width,
        height,
        bearing_x: 0,
        bearing_y: 0,
    })
}

fn answer_to(vector: Vector) -> Answer {
    match vector {
        Vector::Bucket(fraction) => Answer::Bucket(key::quantize_subpixel(fraction)),
        Vector::Narrow(size, embolden) if domain::has_key(size, embolden) => {
            Answer::Narrow(Ok(outline_key(size, embolden)))
        }
        Vector::Narrow(..) => Answer::Narrow(Err(Refused(3))),
        Vector::Metrics(bbox, scale) => Answer::Metrics(outline_metrics(bbox, scale)),
        Vector::Bitmap(width, height) => Answer::Bitmap(bitmap_metrics(width, height)),
        Vector::Supports(kind, transform) => Answer::Supports(
            domain::is_linear_finite(transform)
                && renderer::supports_atlas_caching(&transform, kind),
        ),
        Vector::Finite(Shape::Affine(affine)) => Answer::Finite(affine.is_finite()),
        Vector::Finite(Shape::Rect(rect)) => Answer::Finite(rect.is_finite()),
        Vector::Finite(Shape::Color(parts)) => {
            Answer::Finite(parts.iter().all(|part| part.is_finite()))
        }
    }
}

impl fmt::Display for Refused {
    fn fmt(&self, f: &mut fmt::Formatter<'_>) -> fmt::Result {
        write!(f, "refused {}", self.0)
    }
}

impl fmt::Display for RasterMetrics {
    fn fmt(&self, f: &mut fmt::Formatter<'_>) -> fmt::Result {
        let RasterMetrics {
            width,
            height,
            bearing_x,
            bearing_y,
        } = self;
        write!(f, "{width} {height} {bearing_x} {bearing_y}")
    }
}

impl fmt::Display for GlyphCacheKey {
    fn fmt(&self, f: &mut fmt::Formatter<'_>) -> fmt::Result {
        write!(
            f,
            "{:08x} {:08x} {:08x} {:08x} {:08x}",
            self.size_bits,
            self.embolden_x_bits,
            self.embolden_y_bits,
            self.embolden_miter_limit_bits,
            self.embolden_tolerance_bits
        )
    }
}

impl fmt::Display for Answer {
    fn fmt(&self, f: &mut fmt::Formatter<'_>) -> fmt::Result {
        match self {
            Answer::Bucket(bucket) => write!(f, "bucket {bucket}"),
            Answer::Narrow(Ok(key)) => write!(f, "narrow {key}"),
            Answer::Narrow(Err(refused)) => write!(f, "narrow {refused}"),
            Answer::Metrics(Ok(metrics)) => write!(f, "metrics {metrics}"),
            Answer::Metrics(Err(refused)) => write!(f, "metrics {refused}"),
            Answer::Bitmap(Ok(metrics)) => write!(f, "bitmap {metrics}"),
            Answer::Bitmap(Err(refused)) => write!(f, "bitmap {refused}"),
            Answer::Supports(supports) => write!(f, "supports {supports}"),
            Answer::Finite(finite) => write!(f, "finite {finite}"),
        }
    }
}

/// The words of a line, read one after the other.
struct Words<'a>(std::str::SplitWhitespace<'a>);

impl Words<'_> {
    fn bits(&mut self, digits: usize) -> Option<Option<u64>> {
        let word = self.0.next()?;
        if word == "nan" {
            return Some(None);
        }
        if word.len() != digits || word.starts_with('+') {
            return None;
        }
        Some(Some(u64::from_str_radix(word, 16).ok()?))
    }

    fn f32(&mut self) -> Option<f32> {
        match self.bits(8)? {
            None => Some(f32::NAN),
            Some(bits) => Some(f32::from_bits(bits as u32)).filter(|x| !x.is_nan()),
        }
    }

    fn f64(&mut self) -> Option<f64> {
        match self.bits(16)? {
            None => Some(f64::NAN),
            Some(bits) => Some(f64::from_bits(bits)).filter(|x| !x.is_nan()),
        }
    }

    fn size(&mut self) -> Option<u16> {
        self.0.next()?.parse().ok()
    }

    fn kind(&mut self) -> Option<CachedGlyphType> {
        match self.0.next()? {
            "o" => Some(CachedGlyphType::Outline),
            "b" => Some(CachedGlyphType::Bitmap),
            _ => None,
        }
    }

    fn rect(&mut self) -> Option<Rect> {
        Some(Rect {
            x0: self.f64()?,
            y0: self.f64()?,
            x1: self.f64()?,
            y1: self.f64()?,
        })
    }

    fn linear(&mut self) -> Option<Affine> {
        Some(Affine([
            self.f64()?,
            self.f64()?,
            self.f64()?,
            self.f64()?,
            0.0,
            0.0,
        ]))
    }

    fn affine(&mut self) -> Option<Affine> {
        let [a, b, c, d, _, _] = self.linear()?.as_coeffs();
        Some(Affine([a, b, c, d, self.f64()?, self.f64()?]))
    }

    fn embolden(&mut self) -> Option<FontEmbolden> {
        Some(FontEmbolden {
            amount: Diagonal2 {
                xx: self.f64()?,
                yy: self.f64()?,
            },
            join: Join::Miter,
            miter_limit: self.f64()?,
            tolerance: self.f64()?,
        })
    }

    fn shape(&mut self) -> Option<Shape> {
        match self.0.next()? {
            "affine" => Some(Shape::Affine(self.affine()?)),
            // A path counts by its box alone.
            "rect" | "path" => Some(Shape::Rect(self.rect()?)),
            "color" => Some(Shape::Color([
                self.f32()?,
                self.f32()?,
                self.f32()?,
                self.f32()?,
            ])),
            _ => None,
        }
    }

    fn vector(&mut self) -> Option<Vector> {
        match self.0.next()? {
            "bucket" => Some(Vector::Bucket(self.f32()?)),
            "narrow" => {
                // The same numbers go into a key of either kind.
                self.kind()?;
                Some(Vector::Narrow(self.f32()?, self.embolden()?))
            }
            "metrics" => Some(Vector::Metrics(self.rect()?, self.f64()?)),
            "bitmap" => Some(Vector::Bitmap(self.size()?, self.size()?)),
            "supports" => Some(Vector::Supports(self.kind()?, self.linear()?)),
            "finite" => Some(Vector::Finite(self.shape()?)),
            _ => None,
        }
    }
}

fn vector_of(line: &str) -> Option<Vector> {
    let mut words = Words(line.split_whitespace());
    let vector = words.vector()?;
    words.0.next().is_none().then_some(vector)
}

fn main() -> io::Result<()> {
    let mut out = io::stdout().lock();
    for (index, line) in io::stdin().lock().lines().enumerate() {
        let line = line?;
        if line.trim().is_empty() || line.starts_with('#') {
            writeln!(out, "{line}")?;
            continue;
        }
        match vector_of(&line) {
            Some(vector) => writeln!(out, "{}", answer_to(vector))?,
            None => writeln!(out, "line {}: cannot be read", index + 1)?,
        }
    }
    Ok(())
}

//! A geometry made of the library's events.
use crate::error::Error;
use crate::events::{with_events, Events, BEGIN, END};
use crate::ffi::WktUnits;
use crate::kinds::{Dimension, GeometryType};
use crate::memory::{push, room};
use crate::number::WktNum;
use crate::text::LATER;
use crate::types::{
    Coord, GeometryCollection, LineString, MultiLineString, MultiPoint, MultiPolygon, Point,
    Polygon,
};
use crate::wkt::Wkt;

/// How deep collections may stand in one another. Each level takes stack: here, and wherever a value is compared, copied,
/// written or dropped.
const MOST_LEVELS: usize = 200;
const TOO_DEEP: Error = Error::NoForm("Collections stand in one another more than 200 deep");

/// The geometry that a text is as a whole.
pub(crate) fn read<T: WktNum>(text: &str, places: u32) -> Result<Wkt<T>, Error> {
    with_events(text, places, |mut events| events.geometry(0))
}

/// Each takes its events and its numbers from the front.
impl<'a> Events<'a> {
    #[inline]
    fn event(&mut self) -> Result<u64, Error> {
        let (first, rest) = self.list.split_first().ok_or(LATER)?;
        self.list = rest;
        Ok(*first)
    }

    #[inline]
    fn begin(&mut self) -> Result<(GeometryType, Dimension), Error> {
        let header = self.event()?.checked_sub(BEGIN).ok_or(LATER)?;
        let header = u32::try_from(header).map_err(|_| LATER)?;
        let kind = GeometryType::from_number(header >> 2).ok_or(LATER)?;
        let dim = Dimension::from_number(header & 3).ok_or(LATER)?;
        Ok((kind, dim))
    }

    /// The end of a geometry, behind what it holds.
    #[inline]
    fn ended<P>(&mut self, held: P) -> Result<P, Error> {
        match self.event()? {
            END => Ok(held),
            _ => Err(LATER),
        }
    }

    /// All parts up to the end of a geometry. Of parts that are an event each there are as many as events before that end.
    fn parts<P>(
        &mut self,
        likely: usize,
        mut part: impl FnMut(&mut Self) -> Result<P, Error>,
    ) -> Result<Vec<P>, Error> {
        let mut parts = room(likely)?;
        while self.list.first() != Some(&END) {
            push(&mut parts, part(self)?)?;
        }
        self.ended(parts)
    }

    /// How many events stand before the next end.
    fn before_end(&self) -> usize {
        let end = self.list.iter().position(|event| *event == END);
        end.unwrap_or(0)
    }

    /// The numbers of a list of coordinates.
    #[inline]
    fn list(&mut self, dim: Dimension) -> Result<&'a [WktUnits], Error> {
        let count = usize::try_from(self.event()?).map_err(|_| LATER)?;
        let end = count.checked_mul(dim.size()).ok_or(LATER)?;
        let numbers = self.numbers.get(..end).ok_or(LATER)?;
        self.numbers = &self.numbers[end..];
        Ok(numbers)
    }

    #[inline]
    fn point<T: WktNum>(&mut self, dim: Dimension) -> Result<Point<T>, Error> {
        let at = match self.list(dim)? {
            [] => None,
            numbers => Some(coord(numbers, dim, self.places).ok_or(Error::TooLarge)?),
        };
        Ok(Point::new(at, dim))
    }

    fn line<T: WktNum>(&mut self, dim: Dimension) -> Result<LineString<T>, Error> {
        let numbers = self.list(dim)?;
        let mut coords = room(numbers.len() / dim.size())?;
        for numbers in numbers.chunks_exact(dim.size()) {
            coords.push(coord(numbers, dim, self.places).ok_or(Error::TooLarge)?);
        }
        Ok(LineString::new(coords, dim))
    }

    fn polygon<T: WktNum>(&mut self, dim: Dimension) -> Result<Polygon<T>, Error> {
        let rings = self.parts(self.before_end(), |events| events.line(dim))?;
        Ok(Polygon::new(rings, dim))
    }

    /// A geometry in so many collections.
    fn geometry<T: WktNum>(&mut self, level: usize) -> Result<Wkt<T>, Error> {
        let (kind, dim) = self.begin()?;
        match kind {
            GeometryType::Point => self.made(|events| {
                let point = events.point(dim)?;
                events.ended(point)
            }),
            GeometryType::LineString => self.made(|events| {
                let line = events.line(dim)?;
                events.ended(line)
            }),
            GeometryType::Polygon => self.made(|events| events.polygon(dim)),
            GeometryType::MultiPoint => self.made(|events| {
                let points = events.parts(events.before_end(), |events| events.point(dim))?;
                Ok(MultiPoint::new(points, dim))
            }),
            GeometryType::MultiLineString => self.made(|events| {
                let lines = events.parts(events.before_end(), |events| events.line(dim))?;
                Ok(MultiLineString::new(lines, dim))
            }),
            GeometryType::MultiPolygon => self.made(|events| {
                let polygons = events.parts(0, |events| {
                    let (_, dim) = events.begin()?;
                    events.polygon(dim)
                })?;
                Ok(MultiPolygon::new(polygons, dim))
            }),
            GeometryType::GeometryCollection if level == MOST_LEVELS => Err(TOO_DEEP),
            GeometryType::GeometryCollection => self.made(|events| {
                let members = events.parts(0, |events| events.geometry(level + 1))?;
                Ok(GeometryCollection::new(members, dim))
            }),
        }
    }

    /// What is made of a kind. Each has its own frame on the stack, so that collections in one another take little of it.
    #[inline]
    fn made<T, G: Into<Wkt<T>>>(
        &mut self,
        make: impl FnOnce(&mut Self) -> Result<G, Error>,
    ) -> Result<Wkt<T>, Error> {
        Ok(make(self)?.into())
    }
}

/// The coordinate of these numbers, if its type holds them.
#[inline]
fn coord<T: WktNum>(numbers: &[WktUnits], dim: Dimension, places: u32) -> Option<Coord<T>> {
    let number = |at: usize| T::of_units(whole_units(*numbers.get(at)?), places);
    let (x, y) = (number(0)?, number(1)?);
    let (z, m) = match dim {
        Dimension::XY => (None, None),
        Dimension::XYZ => (Some(number(2)?), None),
        Dimension::XYM => (None, Some(number(2)?)),
        Dimension::XYZM => (Some(number(2)?), Some(number(3)?)),
    };
    Some(Coord { x, y, z, m })
}

#[inline]
fn whole_units(units: WktUnits) -> i128 {
    i128::from(units.high) << 64 | i128::from(units.low)
}

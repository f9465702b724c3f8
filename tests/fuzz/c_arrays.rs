//! wkt_arrays and wkt_from_arrays, and the arrays of a value by the plain reader.
use crate::c_calls::{
    canonical, has_more, pointer, read, Asked, Buffer, Bytes, Room, COLLECTION, MEMORY, NOT_ARRAYS, NOT_WHOLE, SMALL,
    TOO_LARGE, WHOLE,
};
use crate::reader::{text as text_of, units, Numbers, Path, Value};

/// What wkt_arrays returns beside the arrays.
#[repr(C)]
#[derive(Clone, Copy, Debug, Default, PartialEq)]
struct Sizes {
    kind: u32,
    dimension: u32,
    numbers: usize,
    rings: usize,
    polygons: usize,
    end: usize,
}

extern "C" {
    fn wkt_arrays(
        text: Bytes, n: usize, places: u32, sizes: &mut Sizes, numbers: *mut i64, numbers_len: usize,
        rings: *mut usize, rings_len: usize, polygons: *mut usize, polygons_len: usize,
    ) -> u32;
    fn wkt_from_arrays(
        kind: u32, dimension: u32, numbers: *const i64, numbers_len: usize, rings: *const usize, rings_len: usize,
        polygons: *const usize, polygons_len: usize, places: u32, out: Room, m: usize, needed: &mut usize,
    ) -> u32;
}

/// Flat arrays, as include/wkt.h has them.
#[derive(Clone, Debug, PartialEq)]
pub struct Arrays {
    pub kind: u32,
    pub dimension: u32,
    pub numbers: Vec<i64>,
    pub rings: Vec<usize>,
    pub polygons: Vec<usize>,
}

impl Arrays {
    fn sizes(&self, end: usize) -> Sizes {
        let [numbers, rings, polygons] = [self.numbers.len(), self.rings.len(), self.polygons.len()];
        Sizes { kind: self.kind, dimension: self.dimension, numbers, rings, polygons, end }
    }
}

/// Where each list begins in all that they hold, and the end of the last.
fn offsets<X>(lists: &[Vec<X>]) -> Vec<usize> {
    let ends = lists.iter().scan(0, |end, list| {
        *end += list.len();
        Some(*end)
    });
    std::iter::once(0).chain(ends).collect()
}

pub fn arrays(value: &Value, places: u32) -> Result<Arrays, u32> {
    let (kind, dimension, polygons): (u32, usize, Vec<Vec<Path>>) = match value.clone() {
        Value::Point(dim, coord) => (0, dim, vec![vec![coord.into_iter().collect()]]),
        Value::LineString(dim, path) => (1, dim, vec![vec![path]]),
        Value::Polygon(dim, rings) => (2, dim, vec![rings]),
        Value::MultiPoint(dim, all) => (3, dim, vec![all.into_iter().map(|one| one.into_iter().collect()).collect()]),
        Value::MultiLineString(dim, paths) => (4, dim, vec![paths]),
        Value::MultiPolygon(dim, polygons) => (5, dim, polygons),
        Value::Collection(..) => return Err(COLLECTION),
    };
    let rings: Vec<Path> = polygons.concat();
    let numbers = rings.concat().concat();
    let number = |number: &String| i64::try_from(units(number, places as usize)).map_err(|_| TOO_LARGE);
    Ok(Arrays {
        kind,
        dimension: dimension as u32,
        numbers: numbers.iter().map(number).collect::<Result<_, _>>()?,
        rings: offsets(&rings),
        polygons: offsets(&polygons),
    })
}

/// The lists that such offsets make of those items.
fn lists<X: Clone>(items: &[X], offsets: &[usize]) -> Option<Vec<Vec<X>>> {
    let whole = offsets.first() == Some(&0) && offsets.last() == Some(&items.len());
    let lists = offsets.windows(2).map(|at| items.get(at[0]..at[1]).map(<[X]>::to_vec));
    if whole { lists.collect() } else { None }
}

/// The text of the geometry of such arrays, if they are those of one.
pub fn text_of_arrays(arrays: &Arrays, places: u32) -> Result<String, u32> {
    let value = value_of_arrays(arrays, places as usize).ok_or(NOT_ARRAYS)?;
    Ok(text_of(&value))
}

fn value_of_arrays(arrays: &Arrays, places: usize) -> Option<Value> {
    let dim = arrays.dimension as usize;
    let size = *[2, 3, 3, 4].get(dim)?;
    if arrays.numbers.len() % size != 0 {
        return None;
    }
    let number = |units: &i64| {
        let (digits, sign) = (format!("{:0>1$}", units.unsigned_abs(), places + 1), if *units < 0 { "-" } else { "" });
        let (before, after) = digits.split_at(digits.len() - places);
        Numbers::Decimal(places).read(&format!("{sign}{before}.{after}"))
    };
    let numbers: Vec<String> = arrays.numbers.iter().map(number).collect::<Option<_>>()?;
    let coords: Path = numbers.chunks(size).map(<[String]>::to_vec).collect();
    let mut polygons: Vec<Vec<Path>> = lists(&lists(&coords, &arrays.rings)?, &arrays.polygons)?;
    if arrays.kind == 5 {
        return Some(Value::MultiPolygon(dim, polygons));
    }
    let rings = if polygons.len() == 1 { polygons.remove(0) } else { return None };
    let only = |ring: &Path| if ring.len() < 2 { Some(ring.first().cloned()) } else { None };
    match (arrays.kind, &rings[..]) {
        (0, [ring]) => Some(Value::Point(dim, only(ring)?)),
        (1, [ring]) => Some(Value::LineString(dim, ring.clone())),
        (2, _) => Some(Value::Polygon(dim, rings)),
        (3, _) => Some(Value::MultiPoint(dim, rings.iter().map(only).collect::<Option<_>>()?)),
        (4, _) => Some(Value::MultiLineString(dim, rings)),
        _ => None,
    }
}

/// The arrays with one thing changed.
pub fn changed_arrays(mut arrays: Arrays, salt: usize) -> Arrays {
    let at = salt / 12;
    let offset = |offsets: &mut Vec<usize>, step: usize| {
        let which = at % offsets.len();
        offsets[which] = offsets[which].wrapping_add(step);
    };
    match salt % 12 {
        0 => arrays.kind = (at % 9) as u32,
        1 => arrays.dimension = (at % 5) as u32,
        2 => offset(&mut arrays.rings, 1),
        3 => offset(&mut arrays.rings, usize::MAX),
        4 => offset(&mut arrays.polygons, 1),
        5 => offset(&mut arrays.polygons, usize::MAX),
        6 => arrays.rings.truncate(at % 3),
        7 => arrays.polygons.truncate(at % 2),
        8 => arrays.rings.push(arrays.numbers.len() / 2),
        9 => arrays.polygons.push(arrays.rings.len() - 1),
        10 => arrays.numbers.truncate(at % 9),
        _ => arrays.numbers.extend(vec![i64::MIN; at % 5]),
    }
    arrays
}

pub fn check_arrays(asked: &Asked) {
    let places = asked.asked_places();
    let plain = places % WHOLE;
    let read = read(asked.data, places);
    let end = read.as_ref().map_or(0, |(_, end)| *end);
    let arrays = read.and_then(|(value, _)| arrays(&value, plain));
    let wanted = Wanted { more: has_more(asked.data, end, places), end, arrays };
    check_filled(asked, &wanted, places, [usize::MAX; 3]);
    let mut fewer = [usize::MAX; 3];
    fewer[asked.salt % 3] = asked.salt / 3 % 4;
    check_filled(asked, &wanted, places, fewer);
    if let Ok(arrays) = wanted.arrays {
        check_from_arrays(asked, &arrays, plain, canonical(asked.data, plain));
        let other = changed_arrays(arrays, asked.salt);
        check_from_arrays(asked, &other, plain, text_of_arrays(&other, plain));
    }
}

/// The arrays of a text, or why it has none; where its geometry ends, and whether there is more than is asked for.
#[derive(Debug)]
struct Wanted {
    arrays: Result<Arrays, u32>,
    end: usize,
    more: bool,
}

/// The buffers of a call of wkt_arrays, and the sizes that it returned.
struct Filled {
    status: u32,
    sizes: Sizes,
    numbers: Buffer<i64>,
    rings: Buffer<usize>,
    polygons: Buffer<usize>,
}

impl Filled {
    fn of(asked: &Asked, places: u32, room: [usize; 3], poor: bool) -> Filled {
        let mut numbers = Buffer::new(room[0], i64::MIN + 5);
        let (mut rings, mut polygons) = (Buffer::new(room[1], 1 << 60), Buffer::new(room[2], 1 << 60));
        let mut sizes = Sizes::default();
        let ask = || unsafe {
            wkt_arrays(
                pointer(asked.data), asked.data.len(), places, &mut sizes, numbers.at(), room[0], rings.at(), room[1],
                polygons.at(), room[2],
            )
        };
        let status = if poor { asked.poor_call(ask) } else { asked.call(ask) };
        Filled { status, sizes, numbers, rings, polygons }
    }

    fn is_untouched(&self) -> bool {
        self.numbers.holds(&[]) && self.rings.holds(&[]) && self.polygons.holds(&[])
    }

    fn holds(&self, arrays: &Arrays) -> bool {
        self.numbers.holds(&arrays.numbers) && self.rings.holds(&arrays.rings) && self.polygons.holds(&arrays.polygons)
    }
}
/// wkt_arrays with room for those sizes, or so much of it.
fn check_filled(asked: &Asked, wanted: &Wanted, places: u32, most: [usize; 3]) {
    let sizes = match &wanted.arrays {
        Ok(arrays) => arrays.sizes(wanted.end),
        Err(_) => Sizes { numbers: 2, rings: 2, polygons: 2, ..Sizes::default() },
    };
    let whole = [sizes.numbers, sizes.rings, sizes.polygons];
    let room = [0, 1, 2].map(|i| whole[i].min(most[i]));
    let filled = Filled::of(asked, places, room, false);
    let fits = match &wanted.arrays {
        Err(status) => filled.status == *status && filled.sizes == Sizes::default() && filled.is_untouched(),
        Ok(_) if wanted.more => filled.status == NOT_WHOLE && filled.sizes == sizes && filled.is_untouched(),
        Ok(_) if room != whole => filled.status == SMALL && filled.sizes == sizes && filled.is_untouched(),
        Ok(arrays) => filled.status == 0 && filled.sizes == sizes && filled.holds(arrays),
    };
    let library = (filled.status, filled.sizes, filled.numbers.items, filled.rings.items, filled.polygons.items);
    asked.ensure(fits, "wkt_arrays", library, (wanted, room, places));
    if asked.salt % 4 == 0 {
        let poor = Filled::of(asked, places, room, true);
        let fits = if poor.status == MEMORY { poor.is_untouched() } else { poor.status == filled.status };
        asked.ensure(fits, "wkt_arrays without memory", poor.status, filled.status);
    }
}

fn check_from_arrays(asked: &Asked, arrays: &Arrays, places: u32, wanted: Result<String, u32>) {
    let Arrays { kind, dimension, numbers, rings, polygons } = arrays;
    let ask = |out, m, needed: &mut usize| unsafe {
        wkt_from_arrays(
            *kind, *dimension, pointer(numbers), numbers.len(), pointer(rings), rings.len(), pointer(polygons),
            polygons.len(), places, out, m, needed,
        )
    };
    asked.hands_out(wanted.as_ref().map(String::as_bytes).map_err(|status| *status), ask, |_| true);
}

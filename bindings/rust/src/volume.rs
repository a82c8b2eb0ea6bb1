//! An image and its areas together.

use crate::{Area, AreaReport, Found, Given, Handle, Kind, Refusal, Report, Stretches};

/// An image and its areas, so that a call names only what it is about. The image may be lent to
/// read, `&[u8]`, or to write, `&mut [u8]`; calls that write are there for the second alone.
///
/// ```
/// use nffs::{Area, Kind, Volume};
///
/// let mut flash = [0; 2 * 4096];
/// let areas = Area::row::<2>(4096);
/// let mut volume = Volume::new(&mut flash[..], &areas);
/// volume.format()?;
/// volume.create(b"", b"/dose", Kind::File)?;
/// volume.append(b"", b"/dose", b"20 mSv")?;
/// volume.overwrite(b"", b"/dose", 0, b"15")?;
/// volume.rename(b"/", b"dose", b"limit")?;
///
/// let volume = Volume::new(&flash[..], &areas);
/// let mut file = volume.open(b"", b"/limit")?;
/// let mut buffer = [0; 64];
/// let given = volume.read(&mut file, &mut buffer)?;
/// assert_eq!(&buffer[..given.bytes], b"15 mSv");
///
/// // root, file, block, the block's new version and the file's new name, and no damage
/// assert_eq!(volume.area_report(1, 0)?.records, 5);
/// assert_eq!(volume.stretches(1)?.len(), 0);
///
/// let mut text = [0; 64];
/// let length = volume.tree(&mut text)?;
/// assert_eq!(&text[..length], b"/\n limit 6\n");
/// # Ok::<(), nffs::Refusal>(())
/// ```
#[derive(Clone, Copy, Debug)]
pub struct Volume<'a, Image> {
    image: Image,
    areas: &'a [Area],
}

impl<'a, Image: AsRef<[u8]>> Volume<'a, Image> {
    /// An image and its areas. Nothing is looked at yet.
    pub const fn new(image: Image, areas: &'a [Area]) -> Self {
        Volume { image, areas }
    }

    /// The image's bytes.
    pub fn image(&self) -> &[u8] {
        self.image.as_ref()
    }

    /// Its areas.
    pub const fn areas(&self) -> &'a [Area] {
        self.areas
    }

    /// See [`crate::report`].
    pub fn report(&self) -> Result<Report, Refusal> {
        crate::report(self.image.as_ref(), self.areas)
    }

    /// See [`crate::area_report`].
    pub fn area_report(&self, index: u32, stretch: u32) -> Result<AreaReport, Refusal> {
        crate::area_report(self.image.as_ref(), self.areas, index, stretch)
    }

    /// See [`crate::stretches`].
    pub fn stretches(&self, index: u32) -> Result<Stretches<'_>, Refusal> {
        crate::stretches(self.image.as_ref(), self.areas, index)
    }

    /// See [`crate::tree`].
    pub fn tree(&self, text: &mut [u8]) -> Result<usize, Refusal> {
        crate::tree(self.image.as_ref(), self.areas, text)
    }

    /// See [`crate::lookup`].
    pub fn lookup(&self, base: &[u8], path: &[u8]) -> Result<Found, Refusal> {
        crate::lookup(self.image.as_ref(), self.areas, base, path)
    }

    /// See [`crate::open`].
    pub fn open(&self, base: &[u8], path: &[u8]) -> Result<Handle, Refusal> {
        crate::open(self.image.as_ref(), self.areas, base, path)
    }

    /// See [`crate::read`].
    pub fn read(&self, handle: &mut Handle, buffer: &mut [u8]) -> Result<Given, Refusal> {
        crate::read(self.image.as_ref(), self.areas, handle, buffer)
    }

    /// See [`crate::read_at`].
    pub fn read_at(&self, id: u32, position: u32, buffer: &mut [u8]) -> Result<Given, Refusal> {
        crate::read_at(self.image.as_ref(), self.areas, id, position, buffer)
    }
}

impl<Image: AsMut<[u8]>> Volume<'_, Image> {
    /// See [`crate::format`](crate::format()).
    pub fn format(&mut self) -> Result<(), Refusal> {
        crate::format(self.image.as_mut(), self.areas)
    }

    /// See [`crate::create`].
    pub fn create(&mut self, base: &[u8], path: &[u8], kind: Kind) -> Result<u32, Refusal> {
        crate::create(self.image.as_mut(), self.areas, base, path, kind)
    }

    /// See [`crate::append`].
    pub fn append(&mut self, base: &[u8], path: &[u8], data: &[u8]) -> Result<(), Refusal> {
        crate::append(self.image.as_mut(), self.areas, base, path, data)
    }

    /// See [`crate::overwrite`].
    pub fn overwrite(
        &mut self,
        base: &[u8],
        path: &[u8],
        offset: u32,
        data: &[u8],
    ) -> Result<(), Refusal> {
        crate::overwrite(self.image.as_mut(), self.areas, base, path, offset, data)
    }

    /// See [`crate::unlink`].
    pub fn unlink(&mut self, base: &[u8], path: &[u8]) -> Result<(), Refusal> {
        crate::unlink(self.image.as_mut(), self.areas, base, path)
    }

    /// See [`crate::rename`].
    pub fn rename(&mut self, base: &[u8], old_path: &[u8], new_path: &[u8]) -> Result<(), Refusal> {
        crate::rename(self.image.as_mut(), self.areas, base, old_path, new_path)
    }

    /// See [`crate::collect`].
    pub fn collect(&mut self) -> Result<(), Refusal> {
        crate::collect(self.image.as_mut(), self.areas)
    }
}

//! The light of a cubemap, as four coefficients.

/// What falls on a surface from all around it, by the way that the surface faces: four colours, red, green, blue each. They are the
/// constant, and what a unit along y, along z and along x adds, in this order.
///
/// ```
/// use swathecold::{Picture, TextureType};
/// // a black room; its ceiling, face 2, is one red lamp
/// let mut faces = [0x000000FF; 6 * 8 * 8];
/// faces[2 * 64..3 * 64].fill(0xFF0000FF);
/// let light = Picture::new(TextureType::Cubemap, 8, 8, &faces)?.irradiance_sh4()?;
///
/// let [red, green, blue] = light.on([0.0, 1.0, 0.0]);
/// assert!(red > 1.0 && green == 0.0 && blue == 0.0);
/// assert!(light.on([0.6, 0.8, 0.0])[0] < red);
/// assert!(light.on([0.0, -1.0, 0.0])[0] < 0.0);
/// # Ok::<(), swathecold::Refusal>(())
/// ```
#[derive(Clone, Copy, Debug, Default, PartialEq)]
pub struct IrradianceSh4 {
    pub sh: [[f32; 3]; 4],
}

impl IrradianceSh4 {
    /// The irradiance on a surface with this unit normal: x, y, z. A matt surface of albedo a shows a / pi times that. Away from a
    /// lamp that is alone it falls below 0, since four coefficients are few: hold it to 0 before it is shown.
    pub fn on(&self, normal: [f32; 3]) -> [f32; 3] {
        let ([x, y, z], [constant, by_y, by_z, by_x]) = (normal, self.sh);
        [0, 1, 2].map(|c| constant[c] + by_y[c] * y + by_z[c] * z + by_x[c] * x)
    }
}

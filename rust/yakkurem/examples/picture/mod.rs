//! What the pictures have in common: frame, title, legend, and panels that begin at 0. The background is white, so that lines and words show in
//! dark viewers too.

pub const LEFT: f64 = 64.0;
pub const WIDTH: f64 = 864.0;

pub fn begin(title: &str) {
    println!("<svg xmlns='http://www.w3.org/2000/svg' viewBox='0 0 960 540' font-family='sans-serif' font-size='13' fill='#333'>");
    println!("<rect width='960' height='540' fill='white'/>");
    println!("<text x='{LEFT}' y='26' font-size='17'>{title}</text>");
}

pub fn end() {
    println!("</svg>");
}

/// Where something stands that is so many steps from the left, of so many.
pub fn x(at: usize, steps: usize) -> f64 {
    LEFT + WIDTH * at as f64 / steps as f64
}

/// A name below the panels.
pub fn below(x: f64, name: &str) {
    println!("<text x='{x:.1}' y='522' text-anchor='middle'>{name}</text>");
}

pub fn legend(at: f64, colour: &str, name: &str) {
    println!("<rect x='{at}' y='40' width='12' height='12' fill='{colour}'/><text x='{}' y='51'>{name}</text>", at + 18.0);
}

/// A panel of the picture: where its axis stands, how tall it is, and the amount that fills it.
pub struct Panel {
    pub bottom: f64,
    pub height: f64,
    pub most: f64,
}

impl Panel {
    pub fn y(&self, amount: f64) -> f64 {
        self.bottom - self.height * amount / self.most
    }

    /// Lines and figures at round amounts, and the panel's name.
    pub fn grid(&self, step: usize, name: &str) {
        for amount in (0..=self.most as usize).step_by(step) {
            let y = self.y(amount as f64);
            let colour = if amount == 0 { "#555" } else { "#ddd" };
            println!("<line x1='{LEFT}' x2='{}' y1='{y:.1}' y2='{y:.1}' stroke='{colour}'/>", LEFT + WIDTH);
            println!("<text x='{}' y='{:.1}' text-anchor='end'>{amount}</text>", LEFT - 8.0, y + 4.0);
        }
        println!("<text x='{LEFT}' y='{:.1}' font-weight='bold'>{name}</text>", self.bottom - self.height - 12.0);
    }
}

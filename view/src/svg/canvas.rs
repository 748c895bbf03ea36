//! SVG elements, written one after the other.

/// A rectangle; x and y are its upper left corner.
#[derive(Clone, Copy)]
pub struct Area {
    pub x: f64,
    pub y: f64,
    pub width: f64,
    pub height: f64,
}

/// The elements so far.
#[derive(Default)]
pub struct Canvas {
    elements: String,
}

impl Area {
    /// The rectangle of these bounds.
    pub fn new(x: f64, y: f64, width: f64, height: f64) -> Area {
        Area { x, y, width, height }
    }

    /// Its outline as a part of a path.
    pub fn outline(self) -> String {
        let [x, y, width, height] = [self.x, self.y, self.width, self.height].map(number);
        format!("M{x} {y}h{width}v{height}h-{width}z")
    }

    /// Its lower edge as a part of a path.
    pub fn lower_edge(self) -> String {
        format!("M{} {}h{}", number(self.x), number(self.y + self.height), number(self.width))
    }
}

impl Canvas {
    /// Adds the elements of another canvas.
    pub fn append(&mut self, other: Canvas) {
        self.elements += &other.elements;
    }

    /// Opens a group with these attributes; the elements up to its `close` are in it.
    pub fn open(&mut self, attributes: &str) {
        self.elements += &format!("<g {attributes}>\n");
    }

    /// Closes the group that was opened last.
    pub fn close(&mut self) {
        self.elements += "</g>\n";
    }

    /// Opens a window of a class, with coordinates of its own; the elements up to its `close_window` are cut off at its
    /// edges.
    pub fn window(&mut self, area: Area, coordinates: &str, class: &str) {
        let bounds = bounds(area);
        self.elements += &format!(
            "<svg {bounds} viewBox=\"{coordinates}\" preserveAspectRatio=\"none\" class=\"{class}\">\n"
        );
    }

    /// Closes the window that was opened last.
    pub fn close_window(&mut self) {
        self.elements += "</svg>\n";
    }

    /// A rectangle with attributes and, as its tooltip, a title.
    pub fn rect(&mut self, area: Area, attributes: &str, title: &str) {
        let (bounds, title) = (bounds(area), escaped(title));
        self.elements += &format!("<rect {bounds}{}><title>{title}</title></rect>\n", spaced(attributes));
    }

    /// A rectangle without a title.
    pub fn plain(&mut self, area: Area, attributes: &str) {
        self.elements += &format!("<rect {}{}/>\n", bounds(area), spaced(attributes));
    }

    /// A path of this class; nothing for an empty one.
    pub fn path(&mut self, class: &str, path: &str) {
        if !path.is_empty() {
            self.elements += &format!("<path class=\"{class}\" d=\"{path}\"/>\n");
        }
    }

    /// A text that starts at x on the line y, or lies about x where its class says so.
    pub fn text(&mut self, x: f64, y: f64, class: &str, text: &str) {
        self.write(x, y, &format!("class=\"{class}\""), text);
    }

    /// A text that runs upward about the point.
    pub fn upward(&mut self, x: f64, y: f64, text: &str) {
        let turn = format!("class=\"middle\" transform=\"rotate(-90 {} {})\"", number(x), number(y));
        self.write(x, y, &turn, text);
    }

    /// A text with these attributes.
    fn write(&mut self, x: f64, y: f64, attributes: &str, text: &str) {
        let (x, y, text) = (number(x), number(y), escaped(text));
        self.elements += &format!("<text x=\"{x}\" y=\"{y}\" {attributes}>{text}</text>\n");
    }

    /// The whole picture of this size: styles, a white ground, the elements.
    pub fn finish(self, width: f64, height: f64, style: &str) -> String {
        let (width, height) = (number(width), number(height));
        format!(
            "<svg xmlns=\"http://www.w3.org/2000/svg\" width=\"{width}\" height=\"{height}\" \
             viewBox=\"0 0 {width} {height}\">\n{style}<rect width=\"{width}\" height=\"{height}\" fill=\"#fff\"/>\n\
             {}</svg>\n",
            self.elements
        )
    }
}

/// A number with at most one decimal.
pub fn number(value: f64) -> String {
    let text = format!("{value:.1}");
    text.trim_end_matches('0').trim_end_matches('.').to_owned()
}

/// A text without the characters that mark elements.
fn escaped(text: &str) -> String {
    text.replace('&', "&amp;").replace('<', "&lt;").replace('>', "&gt;")
}

/// The attributes of a rectangle's bounds.
fn bounds(area: Area) -> String {
    let Area { x, y, width, height } = area;
    let [x, y, width, height] = [x, y, width, height].map(number);
    format!("x=\"{x}\" y=\"{y}\" width=\"{width}\" height=\"{height}\"")
}

/// Attributes behind a space, if there are some.
fn spaced(attributes: &str) -> String {
    if attributes.is_empty() {
        return String::new();
    }
    format!(" {attributes}")
}

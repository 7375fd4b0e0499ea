// What is drawn on: canvases with as many dots as the screen has, and pictures dot by dot.

/** A canvas with as many dots as the screen has under it; drawing is in dots. */
class Surface {
  constructor(canvas) {
    this.canvas = canvas;
    this.pen = canvas.getContext("2d");
  }

  /** Takes the size that the page gives it. */
  fit() {
    const scale = window.devicePixelRatio || 1, width = Math.max(1, Math.round(this.canvas.clientWidth * scale));
    const height = Math.max(1, Math.round(this.canvas.clientHeight * scale));
    this.scale = scale;
    this.em = parseFloat(getComputedStyle(this.canvas).fontSize) * scale;
    if (width === this.width && height === this.height) return;
    this.width = this.canvas.width = width;
    this.height = this.canvas.height = height;
  }

  clear() { this.pen.clearRect(0, 0, this.width, this.height); }

  text(text, x, y, colour, align = "left") {
    this.pen.font = `${0.82 * this.em}px system-ui, "Liberation Sans", "DejaVu Sans", sans-serif`;
    this.pen.textBaseline = "middle";
    this.pen.textAlign = align;
    this.pen.fillStyle = colour;
    this.pen.fillText(text, x, y);
  }
}

/** A picture dot by dot: thousands of columns are drawn much faster so than one after another. */
class Dots {
  constructor(width, height) {
    this.width = width;
    this.height = height;
    this.image = new ImageData(width, height);
    this.words = new Uint32Array(this.image.data.buffer);
  }

  fill(left, top, width, height, colour) {
    for (let y = Math.max(0, top); y < Math.min(this.height, top + height); y++)
      this.words.fill(colour, y * this.width + left, y * this.width + left + width);
  }

  /** Columns from below, as high as the heights say; where they are thin, their upper ends alone. */
  columns(heights, [top, height], colour, thin = Infinity) {
    const { words, width } = this;
    for (let row = 1; row <= height; row++)
      for (let x = 0, at = (top + height - row) * width; x < width; x++, at++)
        if (heights[x] >= row && heights[x] - row < thin) words[at] = colour;
  }
}

/** 1, 2 or 5 times a power of ten, at least the number. */
function roundUp(number) {
  const power = 10 ** Math.floor(Math.log10(number));
  return [1, 2, 5, 10].map(step => step * power).find(step => step >= number * (1 - 1e-9));
}

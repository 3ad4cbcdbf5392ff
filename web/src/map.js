// The IPv4 space as a square: a Hilbert curve goes through all of it in the order of the addresses,
// so that each block is a square or two next to each other.

// The curve has 512 x 512 places, each of which stands for a block of prefix length 18.
const ORDER = 9;
const SIDE = 2 ** ORDER;
const PLACE_PREFIX = 2 * ORDER;
const PIXELS = 2;
// The prefix lengths from which on a block would be too small to be seen.
const SMALL_PREFIX = 16;
// How wide such a block is drawn.
const SPOT = 7;

/** Where the curve is after so many steps: x + SIDE * y. */
export function placeOf(step) {
  let x = 0;
  let y = 0;
  let rest = step;
  for (let side = 1; side < SIDE; side *= 2) {
    const right = (rest >> 1) & 1;
    const up = (rest ^ right) & 1;
    if (up === 0) {
      if (right === 1) {
        x = side - 1 - x;
        y = side - 1 - y;
      }
      [x, y] = [y, x];
    }
    x += side * right;
    y += side * up;
    rest >>= 2;
  }
  return x + SIDE * y;
}

/** How much of each place is covered, from 0 to 1, by blocks that have no address in common. */
export function coverage(addresses, prefixes) {
  const covered = new Float32Array(SIDE * SIDE);
  for (let index = 0; index < addresses.length; index += 1) {
    const prefix = prefixes[index];
    const first = addresses[index] >>> (32 - PLACE_PREFIX);
    if (prefix > PLACE_PREFIX) {
      covered[first] += 2 ** (PLACE_PREFIX - prefix);
    } else {
      covered.fill(1, first, first + 2 ** (PLACE_PREFIX - prefix));
    }
  }
  return covered;
}

function channels(colour) {
  return [1, 3, 5].map((at) => parseInt(colour.slice(at, at + 2), 16));
}

// The covered places in colour; one that is covered in part is paler, but never as pale as none.
function painted(covered, colours) {
  const image = new ImageData(SIDE, SIDE);
  const full = channels(colours.full);
  for (let step = 0; step < covered.length; step += 1) {
    if (covered[step] > 0) {
      const at = 4 * placeOf(step);
      image.data.set(full, at);
      image.data[at + 3] = 255 * (0.5 + 0.5 * Math.min(1, covered[step]));
    }
  }
  return image;
}

// Puts a spot at each block that would be too small to be seen.
function drawSpots(context, addresses, prefixes, colours) {
  context.fillStyle = colours.full;
  for (let index = 0; index < addresses.length; index += 1) {
    if (prefixes[index] >= SMALL_PREFIX) {
      const place = placeOf(addresses[index] >>> (32 - PLACE_PREFIX));
      const x = (place % SIDE) * PIXELS;
      const y = Math.floor(place / SIDE) * PIXELS;
      context.fillRect(x - 2, y - 2, SPOT, SPOT);
    }
  }
}

// The squares of the 256 blocks of prefix length 8, each with its first octet.
function drawGrid(context, covered, colours) {
  const side = (SIDE / 16) * PIXELS;
  context.strokeStyle = colours.line;
  context.lineWidth = 2;
  context.font = `${side * 0.32}px system-ui, sans-serif`;
  context.textAlign = "center";
  context.textBaseline = "middle";
  for (let octet = 0; octet < 256; octet += 1) {
    const middle = octet * 1024 + 512;
    const place = placeOf(middle);
    const x = Math.floor((place % SIDE) / 32) * side;
    const y = Math.floor(place / SIDE / 32) * side;
    context.strokeRect(x + 0.5, y + 0.5, side, side);
    context.fillStyle = covered[middle] > 0 ? colours.onFull : colours.text;
    context.fillText(String(octet), x + side / 2, y + side / 2);
  }
}

/** Draws what is covered of the IPv4 space on a canvas: `covered` is what `coverage` returns. */
export function drawMap(canvas, { addresses, prefixes }, covered, colours) {
  canvas.width = SIDE * PIXELS;
  canvas.height = SIDE * PIXELS;
  const small = document.createElement("canvas");
  small.width = SIDE;
  small.height = SIDE;
  small.getContext("2d").putImageData(painted(covered, colours), 0, 0);
  const context = canvas.getContext("2d");
  context.imageSmoothingEnabled = false;
  context.fillStyle = colours.ground;
  context.fillRect(0, 0, canvas.width, canvas.height);
  context.drawImage(small, 0, 0, canvas.width, canvas.height);
  drawSpots(context, addresses, prefixes, colours);
  drawGrid(context, covered, colours);
}

/** How much of each of the 256 blocks of prefix length 8 is covered, in addresses. */
export function coveredByOctet(addresses, prefixes) {
  const counts = new Array(256).fill(0);
  for (let index = 0; index < addresses.length; index += 1) {
    const prefix = prefixes[index];
    const first = addresses[index] >>> 24;
    const size = 2 ** (32 - Math.max(prefix, 8));
    for (let octet = first; octet < first + Math.max(1, 2 ** (8 - prefix)); octet += 1) {
      counts[octet] += size;
    }
  }
  return counts;
}

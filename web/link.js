// Links that hold a text, compressed, after the `#`.

const PREFIX = "#text=";

async function through(bytes, stream) {
    const written = new Blob([bytes]).stream().pipeThrough(stream);
    return new Uint8Array(await new Response(written).arrayBuffer());
}

/** The fragment of a link that holds a text. */
export async function fragmentOf(text) {
    const packed = await through(new TextEncoder().encode(text), new CompressionStream("deflate-raw"));
    const letters = Array.from(packed, (byte) => String.fromCharCode(byte)).join("");
    return PREFIX + btoa(letters).replaceAll("+", "-").replaceAll("/", "_").replaceAll("=", "");
}

/** The text that a fragment holds; null where it holds none, or is broken. */
export async function textOf(fragment) {
    if (!fragment.startsWith(PREFIX)) {
        return null;
    }
    try {
        const letters = atob(fragment.slice(PREFIX.length).replaceAll("-", "+").replaceAll("_", "/"));
        const packed = Uint8Array.from(letters, (letter) => letter.charCodeAt(0));
        const bytes = await through(packed, new DecompressionStream("deflate-raw"));
        return new TextDecoder("utf-8", { fatal: true, ignoreBOM: true }).decode(bytes);
    } catch {
        return null;
    }
}

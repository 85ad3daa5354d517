// The worker of the note pad: an image of two files in the origin's private file system, each with the number of its save, its note's length and its bytes.
"use strict";
(() => {
  const NAME = "notes.img", LENGTH = 65536, HEAD = 8; // bytes of a file, and of what stands before a note
  const POOL = 1008; // slots, the least that a pool has: 4.1 MB of what the browser grants. A save takes 32
  let image = null;

  async function unpacked(packed) {
    const bytes = Uint8Array.from(atob(packed), (it) => it.charCodeAt(0)), stream = new Blob([bytes]).stream().pipeThrough(new DecompressionStream("gzip"));
    return WebAssembly.compile(await new Response(stream).arrayBuffer());
  }

  async function open({ famsync }) {
    const folder = await navigator.storage.getDirectory(), file = await folder.getFileHandle(NAME, { create: true }), device = await file.createSyncAccessHandle();
    if (!KefsFile.hasMark(device)) KefsFile.create(device, [LENGTH, LENGTH], POOL);
    image = new KefsFile.Image(await unpacked(famsync), device);
    return { notes: [read(0), read(1)] };
  }

  function read(file) {
    const bytes = new Uint8Array(LENGTH), view = new DataView(bytes.buffer);
    for (let page = 0; page < LENGTH / KefsFile.PAGE; page += 1) bytes.set(image.read(file, page), KefsFile.PAGE * page);
    return { saves: view.getUint32(0, true), text: new TextDecoder().decode(bytes.subarray(HEAD, HEAD + view.getUint32(4, true))) };
  }

  function save({ notes, saves }) {
    const updates = notes.flatMap((text, file) => {
      const content = new TextEncoder().encode(text), bytes = new Uint8Array(LENGTH), view = new DataView(bytes.buffer);
      if (content.length > LENGTH - HEAD) throw new Error(`a note has ${LENGTH - HEAD} bytes at most`);
      view.setUint32(0, saves, true);
      view.setUint32(4, content.length, true);
      bytes.set(content, HEAD);
      return Array.from({ length: LENGTH / KefsFile.PAGE }, (_, page) => ({ file, page, bytes: bytes.subarray(KefsFile.PAGE * page, KefsFile.PAGE * page + KefsFile.PAGE) }));
    });
    image.commit(updates);
    return { saves };
  }

  onmessage = async ({ data }) => {
    try {
      postMessage({ id: data.id, result: await { open, save }[data.verb](data) });
    } catch (why) {
      postMessage({ id: data.id, error: `${why.name}: ${why.message}` });
    }
  };
})();

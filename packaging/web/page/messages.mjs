// What the page and its Workers say to each other: types alone. Each message has its kind, by which it is told from the
// others.

/**
 * @typedef {import('./words.mjs').Key} Key
 * @typedef {import('./words.mjs').Said} Said
 * @typedef {import('./forms.mjs').Found} Found
 * @typedef {import('./search.mjs').Chosen} Chosen
 * @typedef {import('./search.mjs').Try} Try
 * @typedef {import('./xrit.mjs').Mended} Mended
 * @typedef {import('./quality.mjs').Bucket} Bucket
 *
 * What a Worker is asked for.
 * @typedef {{kind: 'load', module: WebAssembly.Module, live: WebAssembly.Module}} Load live: for what reads a file
 * @typedef {{kind: 'which', file: Blob, chosen: Chosen}} Which
 * @typedef {{kind: 'transmit', shelf: Uint8Array, files: number, wrong: number, worse: Worse}} Transmit
 * @typedef {{noise: number, lost: number, seed: number}} Worse percent of noise, and lost frames
 * @typedef {{kind: 'receive', file: Blob, found: Found, port: MessagePort}} Receive
 * @typedef {{kind: 'judge', file: Blob, found: Found}} Judge
 * @typedef {{kind: 'keep', port: MessagePort, file: Blob, found: Found}} Keep
 * @typedef {import('./windows.mjs').Window} Window
 * @typedef {{kind: 'windows', windows: Window[]}} Windows the next frames of the recording, which a Worker tells the
 *   page, and the page the one that keeps the shelf
 * @typedef {{kind: 'layers', number: number, isNext: boolean}} AskLayers isNext: of the next frame after it in which a
 *   part of a picture begins
 * @typedef {{kind: 'open', file: Blob}} Open
 * @typedef {{kind: 'give', files: File[]}} Give
 * @typedef {{kind: 'look', id: number, most: number}} Look most: pixels of a side
 * @typedef {{kind: 'save', id: number}} Save
 * @typedef {{kind: 'saveFile', number: number, member: number}} SaveFile member: -1 for the file as it was received
 * @typedef {{kind: 'end' | 'more' | 'saveAll' | 'saveShelf'}} Plain
 * @typedef {Load | Which | Transmit | Receive | Judge | Keep | Windows | AskLayers | Open | Give | Look | Save
 *   | SaveFile | Plain} Task
 *
 * What it tells.
 * @typedef {{kind: 'did', task: string}} Did
 * @typedef {{kind: 'failed' | 'trouble', text: string}} Failed
 * @typedef {{kind: 'sample', bytes: Uint8Array}} Sample
 * @typedef {{kind: 'tried'} & Try} Tried
 * @typedef {{kind: 'trying'} & import('./search.mjs').Trying} Trying
 * @typedef {{kind: 'found'} & import('./search.mjs').Answer} Answered
 * @typedef {{kind: 'progress', read: number, size: number}} Progress
 * @typedef {{kind: 'received', status: number, last: string, err: string, fault: string, memory: number}} Received
 * @typedef {{kind: 'opened', status: number, err: string, bad: number, files: number}} Opened
 * @typedef {{kind: 'file', number: number, name: string, stamp: string, size: number, corrected: number, type: Key,
 *   note: Said | null}} FileTold
 * @typedef {{name: string, stamp: string, missing: string, lacking: number, mended: Mended | null}} About of a picture:
 *   which segments are missing, and how many
 * @typedef {import('./paint.mjs').Seen | null} SeenTold null where there is a note why
 * @typedef {{kind: 'picture', id: number, seen: SeenTold, note?: Key} & About} PictureTold
 * @typedef {{kind: 'looked', id: number, most: number, seen: SeenTold, note?: Key}} Looked
 * @typedef {{kind: 'dropped', id: number}} Dropped a picture that has left the list
 * @typedef {{kind: 'given', files: number, left: number}} Given
 * @typedef {{kind: 'sent', id?: number, number: number, member: number, bytes: Uint8Array, type: string} & About
 *   } SentTold id: of a picture, and none where it stands in another file
 * @typedef {{kind: 'text', number: number, member: number, name: string, stamp: string, heading: string, text: string,
 *   isCut: boolean}} TextTold
 * @typedef {{kind: 'quality', buckets: Bucket[], total: Bucket, frames: number, isCounted: boolean, isWhole?: boolean
 *   }} Quality frames: that the recording has room for; isCounted: lost frames are told by the counters of the others
 * @typedef {object} Layered what happens to a frame; it is null where there is no such frame
 * @property {import('./frames.mjs').Frame} frame
 * @property {Window} window
 * @property {Said[]} files
 * @property {Said[]} lines
 * @property {Said[]} lost
 * @typedef {{kind: 'layers', number: number, layered: Layered | null}} LayersTold
 * @typedef {{kind: 'settled', files: number, waiting: number}} Settled
 * @typedef {{kind: 'saved', name?: string, bytes?: Uint8Array | Blob, type: string}} Saved
 * @typedef {Did | Failed | Sample | Trying | Tried | Answered | Progress | Received | Opened | Given | FileTold
 *   | PictureTold | SentTold | Looked | Dropped | Windows | LayersTold | TextTold | Quality | Settled | Saved} Told
 */
export {};

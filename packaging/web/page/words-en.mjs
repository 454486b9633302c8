// Texts of the page in English. The other tables have the same keys.

export const ENGLISH = {
  title: 'Weather satellite receiver',
  skip: 'Skip to the pictures and texts',
  intro:
    'Turns a recording of a weather satellite into pictures and texts. Everything happens on this computer; nothing ' +
    'is sent anywhere. It works in Chrome or Edge (version 133 or later) and Firefox (134 or later). Safari, iPhones ' +
    "and iPads can't run it yet.",
  language: 'Language',
  'start.title': 'Choose a recording',
  'start.sample': 'Try the sample',
  'start.choose': 'Choose a file',
  'start.help': 'Or drop files here: a [recording], a [shelf] you saved earlier, or `.lrit` files and zips of them.',
  'sample.title': 'Make the sample worse',
  'sample.help':
    'More noise makes bits wrong. Lost frames are parts of the signal that are missing, as if a bird flew by.',
  'sample.noise': 'Noise: {percent} % of the signal',
  'sample.lost': 'Lost blocks of data ([frame:frames]): {count} of {frames}',
  'recording.title': 'What is a recording?',
  'recording.text':
    'A weather satellite sends pictures and texts as a stream of bits. A radio and a [demodulator] turn its signal ' +
    'into numbers, one for each bit that arrives: a number above zero probably means 1, below zero 0; the further ' +
    'from zero, the more certain. A file of these numbers ([symbol:soft symbols]) is a recording. Programs that make ' +
    'one are SatDump (`.soft`), goestools and GNU Radio.',
  'recording.sample':
    'No recording? Try the sample. A program drew it: an earth with clouds and two bulletins, sent as the satellite ' +
    'GOES sends them, with errors that have to be corrected.',
  'recording.radio':
    'Recordings of the radio itself (IQ samples) work too: WAV files, or raw files whose names end with `.cu8`, ' +
    '`.cs16` or `.cf32` or state the samples per second, such as `2400000Hz`.',
  'settings.title': 'Settings',
  'settings.code': 'How the bits are sent (line code)',
  'settings.form': 'File format',
  'settings.find': 'detect automatically',
  'settings.mend': 'Show damaged pictures too',
  'settings.mend.help':
    'Where parts of a picture ([packet:packets]) are lost, its lines are black or repeated, and the text below it ' +
    "says so. Without this setting such a picture isn't shown at all.",
  code: '{line}, g2 {g2}',
  'code.goes': '{line}, g2 {g2} (GOES)',
  'form.signed': 'signed bytes',
  'form.unsigned': 'unsigned bytes',
  'form.bits': 'bits, one per byte',
  'form.packed': 'bits, eight per byte',
  'form.s16le': '16-bit integers, low byte first',
  'form.s16be': '16-bit integers, high byte first',
  'form.f32le': '32-bit floats, low byte first',
  'form.f32be': '32-bit floats, high byte first',
  'form.frames': 'frames of 892 bytes',
  'form.cadu': 'frames of 1024 bytes with their marker',

  'state.title': 'Status',
  'state.sample': 'Making the sample …',
  'state.shelf': 'Opening the shelf …',
  'state.files': 'Opening the files …',
  'state.finding': 'Detecting how the bits were sent …',
  'state.trying': 'Detecting how the bits were sent … trying {how}',
  'state.receiving': 'Receiving … ({how})',
  'state.done.all': 'Done. All {frames} blocks of data ([frame:frames]) were received, and they held {files}.',
  'state.done.some':
    'Done. {restored} of {frames} blocks of data ([frame:frames]) were received; {lost} were too damaged. They held ' +
    '{files}.',
  'state.done.frames': 'Done. The {frames} blocks of data ([frame:frames]) of the recording held {files}.',
  'state.nothing': 'Nothing was found with these settings. Set both to “detect automatically”.',
  'state.stopped': 'Stopped. Everything received so far is kept.',
  'state.failed': 'Something went wrong: {reason}',
  'state.early': 'The receiver ended early: {reason}',
  'state.trouble': "A file can't be shown: {reason}",
  'state.memory': 'the browser has no memory left',
  'state.old':
    "This browser can't run the receiver: it needs 64-bit memory, which Chrome or Edge 133, Firefox 134 and later " +
    'have.',
  'opened.whole': 'The [shelf] is open, and every file on it is intact.',
  'opened.empty': 'The [shelf] is open. There is no file on it.',
  'opened.bad.one': 'The [shelf] is open. One of its files is damaged; the list below marks it.',
  'opened.bad.other': 'The [shelf] is open. {count} of its files are damaged; the list below marks them.',
  'opened.torn.one':
    "This [shelf] breaks off, perhaps because it wasn't copied completely. The one file before that is shown.",
  'opened.torn.other':
    "This [shelf] breaks off, perhaps because it wasn't copied completely. The {count} files before that are shown.",
  'opened.failed': "The shelf can't be opened: {reason}",
  'opened.files.one': 'One [lrit:LRIT file] is open.',
  'opened.files.other': '{count} [lrit:LRIT files] are open.',
  'opened.left.one': 'One other file was left out.',
  'opened.left.other': '{count} other files were left out.',
  'opened.none': 'There is no LRIT or HRIT file in it.',
  'files.one': 'one file',
  'files.other': '{count} files',
  'time.seconds': '{share} %, about {count} seconds left. Files so far: {files}',
  'time.minutes': '{share} %, about {count} minutes left. Files so far: {files}',
  'time.none': '{share} %. Files so far: {files}',
  'progress.label': 'How much of the recording was read',
  stop: 'Stop',
  'tries.title': 'What was tried',
  'tries.restored': '{how}: {restored} of {frames} frames restored',
  'tries.nothing': '{how}: nothing found',
  'tries.middle': 'from the middle, {how}',
  'tries.both': 'As unsigned bytes the result is the same. If many frames are lost, choose “unsigned bytes”.',

  'reason.empty': 'The file is empty.',
  'reason.short': 'The file is very short.',
  'reason.jpeg': 'This is a JPEG picture, not a recording.',
  'reason.png': 'This is a PNG picture, not a recording.',
  'reason.gif': 'This is a GIF picture, not a recording.',
  'reason.pdf': 'This is a PDF document, not a recording.',
  'reason.zip': 'This is a zip, not a recording.',
  'reason.radio':
    'This seems to be a recording of the radio itself, not of symbols. A [demodulator], such as lritdemod or ' +
    'SatDump, makes symbols of it first.',
  'reason.weak': 'A signal is there ({how}, {frames} frames), but too weak: no frame could be restored.',
  'reason.noise': 'Nothing that this receiver knows was found in the file. It may be noise, or something else.',

  'contents.label': 'Contents',
  'contents.pictures': 'Pictures ({count})',
  'contents.texts': 'Texts ({count})',
  'contents.quality': 'How well it was received',
  'contents.files': 'All files ({count})',
  'save.all': 'Save everything as a zip',
  'save.shelf': 'Save the shelf',
  'save.recording': "Save the sample's recording",
  'save.note':
    'The [shelf] is one file with everything that was received. This page opens it again, and the program ' +
    '`lritstation` reads it.',
  'pictures.title': 'Pictures',
  'pictures.more': 'Show more pictures',
  'picture.open': 'Open {name}',
  'picture.none': "This image can't be shown here.",
  'picture.bounds': 'It is coded, and the bounds of its packets are lost in an LRIT file.',
  'picture.large': 'It is too large for this browser.',
  'picture.size': '{columns} × {lines}',
  'picture.sent': 'as it was sent',
  'picture.unread': "The browser can't read it.",
  'picture.segments.one': 'One part ([segment]) is missing: {numbers}.',
  'picture.segments.other': '{count} parts ([segment:segments]) are missing: {numbers}.',
  'picture.packets': '{fillers} of {packets} [packet:packets] were lost; their lines are black or repeated.',
  'texts.title': 'Texts',
  'texts.more': 'Show more texts',
  'text.cut': 'only the beginning is shown',
  'text.save': 'Save the text',
  'text.saves': 'Save the text of {title}',
  'files.title': 'All files',
  'files.more': 'Show more files',
  'files.caption': 'The files that were received',
  'files.number': 'File',
  'files.name': 'Name',
  'files.time': 'Time (UTC)',
  'files.type': 'Type',
  'files.bytes': 'Bytes',
  'files.corrected': 'Corrected bytes',
  'files.save': 'Save',
  'files.saves': 'Save file {number} as it was received',
  'file.name': 'file {number}',
  'type.picture': 'picture',
  'type.text': 'text',
  'type.zip': 'zip',
  'type.other': 'other',
  'type.kept': 'kept as received',
  'type.damaged': 'damaged: its checksum is wrong',
  'note.mended': '{fillers} of {packets} packets lost',
  'note.encrypted': 'it is encrypted',
  'note.header': 'its header has a fault',
  'note.zip.unreadable': "the zip can't be read",
  'note.zip.many': 'the zip has too many files',
  'note.zip.packing': 'a file in the zip is encrypted, or packed in another way',
  'note.zip.large': 'the zip is too large when it is unpacked',
  'note.zip.sum': 'the checksum of a file in the zip is wrong',
  'note.zip.empty': 'the zip has no file',

  'view.label': 'Picture at full size',
  'view.close': 'Close',
  'view.loading': 'Loading the picture …',
  'view.larger': 'Larger',
  'view.smaller': 'Smaller',
  'view.fit': 'Whole picture',
  'view.full': 'Full size (1:1)',
  'view.colours': 'Colours',
  'colours.grey': 'grey, as sent',
  'colours.ir': 'infrared: cold clouds in colour',
  'colours.wv': 'water vapour: moist blue, dry brown',
  'colours.heat': 'heat: warm light, cold dark',
  'view.light': 'Light',
  'view.contrast': 'Contrast',
  'view.reset': 'Reset',
  'view.lost': 'Mark lost lines',
  'view.compare': 'Compare with',
  'view.nothing': 'nothing',
  'view.wipe': 'Border between the two',
  'view.play.one': 'Play',
  'view.play.other': 'Play {count} pictures',
  'view.pause': 'Pause',
  'view.save': 'Save as PNG',
  'view.saves': 'Save the picture {name} as PNG',
  'view.titled': 'with title and date',
  'view.shown': 'with these colours',
  'view.help': 'Drag to move it. Scroll, or press + and −, to zoom.',
  'view.pixel': 'Column {column}, line {line}: {value} of {most}',

  'radio.sample': 'Try it as a radio signal',
  'radio.ask':
    'This is a recording of the radio itself. Enter how many samples per second it has, then press “Demodulate”.',
  'radio.rate': 'Samples per second',
  'radio.form': 'Form of the samples',
  'radio.downlink': 'Signal',
  'radio.start': 'Demodulate',
  'radio.u8': 'unsigned bytes',
  'radio.s8': 'signed bytes',
  'radio.s16': '16-bit integers',
  'radio.f32': '32-bit floats',
  'radio.goes-hrit': 'GOES HRIT, {symbols} symbols per second',
  'radio.gk2a-lrit': 'GK-2A LRIT, {symbols} symbols per second',
  'radio.goes-lrit': 'GOES-N LRIT (ended), {symbols} symbols per second',
  'radio.drawing': 'Making the radio signal of the sample …',
  'radio.going':
    'Turning the radio signal into [symbol:soft symbols] … ({form}, {rate} samples per second, {downlink})',
  'radio.nothing':
    'No signal was found in this recording. Check the samples per second, their form, and the signal below.',
  'radio.refused': "The signal can't be demodulated at this rate: each symbol needs 1.3 to 20 samples.",
  'radio.title': 'The signal of the radio',
  'radio.locked':
    'A signal is received, {ratio} dB stronger than the noise (Es/N0). Its carrier is {carrier} Hz from the ' +
    'middle of the band.',
  'radio.none': 'No signal has been found yet.',
  'radio.clipped': '{percent} % of the values are at their limit: the radio was set too loud.',
  'radio.constellation':
    'Each dot is one [symbol]. A dot on the right means 1, on the left 0. Noise spreads the dots; where the two ' +
    'clouds meet, bits become wrong.',
  'radio.constellation.label': 'Constellation: dots of the newest symbols',
  'radio.spectrum':
    'Strength of the signal by frequency, from {most} MHz below the middle to {most} MHz above it. The hump is ' +
    'the satellite; around it is noise.',
  'radio.spectrum.label': 'Spectrum of the newest samples',

  'quality.title': 'How well it was received',
  'quality.none': 'No block of data ([frame]) was found.',
  'quality.lost': 'Of {frames} blocks of data ([frame:frames]) {lost} were lost ({share} %).',
  'quality.again': '{count} were restored by decoding them again.',
  'quality.corrected':
    'On average {mean} wrong bytes were corrected in each of the others; {most} is the most that can be in one pass.',
  'quality.counters': 'Their numbers tell which are missing. In such a recording errors were corrected before.',
  'quality.legend':
    'Line and left scale: bytes that were corrected in a frame. Red bars and right scale: the share of frames that ' +
    'were lost. Click a place to see what happens there.',
  'quality.legend.counters': 'Red bars and right scale: the share of frames that were lost.',
  'quality.axis': 'frames',
  'quality.seconds': '{count} s at {rate} symbols a second',

  'layers.title': 'What happens, layer by layer',
  'layers.intro': 'From numbers to a picture, with one block of data ([frame]) of this recording. Choose which one:',
  'layers.frame': 'Number of the frame',
  'layers.before': 'One back',
  'layers.after': 'One on',
  'layers.lost': 'Next lost frame',
  'layers.next': 'Next frame with a part of a picture',
  'layers.none': 'no such frame',
  'layers.wait': 'One moment …',
  'symbols.title': '1. Numbers of the radio ([symbol:soft symbols])',
  'symbols.text':
    'A dot for each of the 16,384 numbers of this frame. Above the line it means 1, below it 0. Two clouds far apart ' +
    'are a good signal; where they overlap, bits are wrong.',
  'symbols.wrong': '{count} of them ({share} %) have the wrong sign.',
  'marker.title': '2. Where the frame begins ([marker])',
  'marker.text':
    'Every frame begins with the same 32 bits, 1ACFFC1D. They are found at number {place} of the recording: {hits} ' +
    'of the 52 numbers that can be compared agree.',
  'marker.inverted': 'The signal is upside down (polarity −), so each number is taken with the other sign.',
  'frame.title': '3. Wrong bytes are corrected ([reedsolomon])',
  'frame.text':
    'Two numbers were sent for each bit, and the likeliest bits are computed from all of them ([viterbi]). They make ' +
    '1,020 bytes, in four words. The 128 bytes at the end are there to find and correct errors: at most 16 in each ' +
    'word.',
  'frame.restored': 'Corrected in the four words: {words} bytes. They are marked; point at one to see what it was.',
  'frame.lost': 'In word {word} more than 16 bytes are wrong. It cannot be corrected, so the frame is lost.',
  'frame.again': 'The receiver restored this frame by decoding it again, which is not shown here.',
  'frame.label': 'The 1,020 bytes of the frame, with the corrected ones marked',
  'frame.head': 'head',
  'frame.data': 'data',
  'frame.extra': 'bytes for correcting',
  'frame.wrong': 'corrected',
  'frame.byte': 'Byte {place}: {before} arrived, {after} is right',
  'frame.plain': 'Byte {place}: {after}',
  'packets.title': '4. Parts of files ([packet:packets])',
  'packets.text': 'The frame is number {counter} of [channel:channel {channel}].',
  'packets.fill': 'It is fill: the satellite had nothing to send at that moment.',
  'packets.onward': 'All of it goes on with a packet that began before.',
  'packets.start': 'Begins at byte',
  'packets.apid': 'Product number ([apid])',
  'packets.count': 'Number',
  'packets.part': 'Part of the file',
  'packets.size': 'Bytes',
  'packets.idle': 'fill',
  'part.0': 'middle',
  'part.1': 'first',
  'part.2': 'last',
  'part.3': 'all of it',
  'file.title': '5. The file they make ([lrit])',
  'file.text': '{name}: {packets} [packet:packets], from frame {first} to frame {last}.',
  'file.none': 'No file on the shelf has a packet that begins in this frame.',
  'lines.title': '6. Its lines in the picture',
  'lines.text': 'Lines {first} to {last} of the picture {name} come from packets that begin in this frame.',
  'lines.lost': 'Lines {first} to {last} of the picture {name} are lost with it.',
  'lines.whole': 'Lines {first} to {last} of the picture {name} would have been here. They are lost.',
  'lost.title': 'What was lost with it',
  'lost.fill': 'Nothing: the frame was fill.',
  'lost.channel': 'It belonged to [channel:channel {channel}].',
  'lost.file': 'No file that was received lacks a part here. A file that began or ended in it did not appear.',
  'lost.unknown': 'It cannot be told what it carried, as too many frames around it are lost too.',

  'about.title': "About this page: what is proved, and what isn't",
  'about.intro':
    'The receiver in this page is that of the Gomtasil ground station, compiled for browsers. What it promises was ' +
    'proved by a machine before it was compiled:',
  'about.keeps': 'It loses nothing: it keeps exactly the files that the recording holds, in their order.',
  'about.stops':
    'If it is stopped at any moment, the files that were shown before are still there. (The button Stop ends it in ' +
    'the middle of its work, as a power cut would.)',
  'about.corrects': 'A word of 255 bytes with at most sixteen wrong ones is corrected, and every other one is refused.',
  'about.defined':
    'Whatever the recording holds, the receiver does nothing that its language leaves undefined, and every command ' +
    'comes to an end.',
  'about.bytes':
    'These promises are about bytes that the page gives and gets. Where a command runs over bytes in memory ' +
    '(detecting the line code, the picture of a file, the sample), they hold to the byte. When it receives a file or ' +
    "checks a shelf, the page's own functions read and write piece by piece; the proof can't say anything about " +
    "these, as it can't about real files.",
  'about.trusted':
    "Not proved, but trusted: that the proof's rules and the standards of the satellites say what they should; the " +
    'compiler, which first makes code for another processor and is then asked for WebAssembly; three functions for ' +
    "large numbers; the page's memory blocks; the browser; and everything else in this page: which line code is " +
    'taken, how segments are joined, what is shown as text, how zips and LRIT files are opened, PNG, colours, the ' +
    'curve, and the layers, which decode a frame a second time to show it.',
  'about.network':
    'The page asks no network for anything, and a rule in it (a content security policy) forbids it to. When you ' +
    "close the page, everything you haven't saved is lost.",
  'about.build': 'Version: {version}',

  'glossary.title': 'Words',
  'term.recording': 'recording',
  'about.recording': 'A file with the numbers that a demodulator gave, one for each bit.',
  'term.demodulator': 'demodulator',
  'about.demodulator': "A program that turns a radio's signal into numbers, one for each bit that arrives.",
  'term.symbol': 'soft symbol',
  'about.symbol': 'A number for a bit as it was heard. Its sign says 1 or 0, and its size how certain that is.',
  'term.linecode': 'line code',
  'about.linecode': 'How bits become a signal. nrz-l: the level is the bit. nrz-m: a change of the level means 1.',
  'term.viterbi': 'Viterbi decoder',
  'about.viterbi': 'A method that finds the bits which fit all the received numbers best.',
  'term.frame': 'frame',
  'about.frame':
    'A block of 1,024 bytes. The whole signal is cut into such blocks, and each can be corrected by itself.',
  'term.marker': 'sync marker',
  'about.marker': 'The 32 bits 1ACFFC1D with which every frame begins, so that it can be found.',
  'term.reedsolomon': 'Reed-Solomon code',
  'about.reedsolomon': '128 further bytes in each frame, by which wrong bytes are found and corrected.',
  'term.channel': 'virtual channel',
  'about.channel': 'Frames with the same channel number belong together, like the wagons of one train.',
  'term.packet': 'packet',
  'about.packet': 'A part of a file. Packets are numbered, so a missing one is noticed.',
  'term.apid': 'APID',
  'about.apid': 'Application process identifier: the number of the kind of product that a packet belongs to.',
  'term.segment': 'segment',
  'about.segment': 'A part of a picture that is sent as a file of its own, usually a strip across it.',
  'term.lrit': 'LRIT',
  'about.lrit': 'Low and High Rate Information Transmission: the format in which weather satellites send files.',
  'term.shelf': 'shelf',
  'about.shelf': 'One file with everything that was received, in the order in which it came.',
};

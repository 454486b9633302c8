// Texts of the page in Spanish.

/** @type {import('./words.mjs').Table} */
export const SPANISH = {
  title: 'Receptor de satélites meteorológicos',
  skip: 'Ir a las imágenes y los textos',
  intro:
    'Convierte la grabación de un satélite meteorológico en imágenes y textos. Todo ocurre en este ordenador; no se ' +
    'envía nada a ninguna parte. Funciona en Chrome o Edge (versión 133 o posterior) y en Firefox (134 o posterior). ' +
    'Safari, los iPhone y los iPad todavía no pueden.',
  language: 'Idioma',
  'start.title': 'Elige una grabación',
  'start.sample': 'Probar el ejemplo',
  'start.choose': 'Elegir un archivo',
  'start.help':
    'O suelta archivos aquí: una [recording], una [shelf] guardada antes, o archivos `.lrit` y zips con ellos.',
  'sample.title': 'Empeorar el ejemplo',
  'sample.help':
    'Con más ruido hay bits equivocados. Los bloques perdidos son trozos de señal que faltan, como si pasara un ' +
    'pájaro.',
  'sample.noise': 'Ruido: {percent} % de la señal',
  'sample.lost': 'Bloques de datos perdidos ([frame:tramas]): {count} de {frames}',
  'recording.title': '¿Qué es una grabación?',
  'recording.text':
    'Un satélite meteorológico envía imágenes y textos como una corriente de bits. Una radio y un [demodulator] ' +
    'convierten la señal en números, uno por cada bit que llega: un número mayor que cero significa probablemente 1, ' +
    'y menor que cero, 0; cuanto más lejos de cero, más seguro. Un archivo de estos números ([symbol:símbolos ' +
    'blandos]) es una grabación. Los hacen programas como SatDump (`.soft`), goestools y GNU Radio.',
  'recording.sample':
    '¿No tienes ninguna? Prueba el ejemplo. Lo dibujó un programa: una Tierra con nubes y dos boletines, enviados ' +
    'como lo hace el satélite GOES, con errores que hay que corregir.',
  'recording.radio':
    'También sirven grabaciones de la propia radio (muestras IQ): archivos WAV, o archivos sin cabecera cuyos ' +
    'nombres terminan en `.cu8`, `.cs16` o `.cf32` o indican las muestras por segundo, como `2400000Hz`.',
  'settings.title': 'Ajustes',
  'settings.code': 'Cómo se envían los bits (código de línea)',
  'settings.form': 'Formato del archivo',
  'settings.find': 'detectar automáticamente',
  'settings.mend': 'Mostrar también imágenes dañadas',
  'settings.mend.help':
    'Donde se pierden partes de una imagen ([packet:paquetes]), sus líneas quedan negras o repetidas, y el texto de ' +
    'debajo lo dice. Sin este ajuste, una imagen así no se muestra.',
  code: '{line}, g2 {g2}',
  'code.goes': '{line}, g2 {g2} (GOES)',
  'form.signed': 'bytes con signo',
  'form.unsigned': 'bytes sin signo',
  'form.bits': 'bits, uno por byte',
  'form.packed': 'bits, ocho por byte',
  'form.s16le': 'enteros de 16 bits, primero el byte bajo',
  'form.s16be': 'enteros de 16 bits, primero el byte alto',
  'form.f32le': 'números con decimales de 32 bits, primero el byte bajo',
  'form.f32be': 'números con decimales de 32 bits, primero el byte alto',
  'form.frames': 'tramas de 892 bytes',
  'form.cadu': 'tramas de 1024 bytes con su marca',

  'state.title': 'Estado',
  'state.sample': 'Preparando el ejemplo …',
  'state.shelf': 'Abriendo la colección …',
  'state.files': 'Abriendo los archivos …',
  'state.finding': 'Detectando cómo se enviaron los bits …',
  'state.trying': 'Detectando cómo se enviaron los bits … probando {how}',
  'state.receiving': 'Recibiendo … ({how})',
  'state.done.all': 'Listo. Se recibieron los {frames} bloques de datos ([frame:tramas]), y contenían {files}.',
  'state.done.some':
    'Listo. Se recibieron {restored} de {frames} bloques de datos ([frame:tramas]); {lost} estaban demasiado ' +
    'dañados. Contenían {files}.',
  'state.done.frames': 'Listo. Los {frames} bloques de datos ([frame:tramas]) de la grabación contenían {files}.',
  'state.nothing': 'Con estos ajustes no se encontró nada. Pon los dos en «detectar automáticamente».',
  'state.stopped': 'Detenido. Se conserva todo lo recibido hasta ahora.',
  'state.failed': 'Algo salió mal: {reason}',
  'state.early': 'El receptor terminó antes de tiempo: {reason}',
  'state.trouble': 'No se puede mostrar un archivo: {reason}',
  'state.memory': 'el navegador no tiene más memoria',
  'state.old':
    'Este navegador no puede ejecutar el receptor: necesita memoria de 64 bits, que tienen Chrome o Edge 133, ' +
    'Firefox 134 y posteriores.',
  'opened.whole': 'La [shelf] está abierta, y todos sus archivos están intactos.',
  'opened.empty': 'La [shelf] está abierta. No tiene ningún archivo.',
  'opened.bad.one': 'La [shelf] está abierta. Uno de sus archivos está dañado; la lista de abajo lo señala.',
  'opened.bad.other': 'La [shelf] está abierta. {count} de sus archivos están dañados; la lista de abajo los señala.',
  'opened.torn.one':
    'Esta [shelf] se interrumpe, quizá porque no se copió entera. Se muestra el único archivo anterior.',
  'opened.torn.other':
    'Esta [shelf] se interrumpe, quizá porque no se copió entera. Se muestran los {count} archivos anteriores.',
  'opened.failed': 'No se puede abrir la colección: {reason}',
  'opened.files.one': 'Un [lrit:archivo LRIT] está abierto.',
  'opened.files.other': '{count} [lrit:archivos LRIT] están abiertos.',
  'opened.left.one': 'Otro archivo se dejó fuera.',
  'opened.left.other': 'Otros {count} archivos se dejaron fuera.',
  'opened.none': 'No contiene ningún archivo LRIT ni HRIT.',
  'files.one': 'un archivo',
  'files.other': '{count} archivos',
  'time.seconds': '{share} %, faltan unos {count} segundos. Archivos hasta ahora: {files}',
  'time.minutes': '{share} %, faltan unos {count} minutos. Archivos hasta ahora: {files}',
  'time.none': '{share} %. Archivos hasta ahora: {files}',
  'progress.label': 'Cuánto de la grabación se ha leído',
  stop: 'Detener',
  'tries.title': 'Lo que se probó',
  'tries.restored': '{how}: {restored} de {frames} tramas restauradas',
  'tries.nothing': '{how}: no se encontró nada',
  'tries.middle': 'desde la mitad, {how}',
  'tries.both': 'Como bytes sin signo el resultado es el mismo. Si se pierden muchas tramas, elige «bytes sin signo».',

  'reason.empty': 'El archivo está vacío.',
  'reason.short': 'El archivo es muy corto.',
  'reason.jpeg': 'Esto es una imagen JPEG, no una grabación.',
  'reason.png': 'Esto es una imagen PNG, no una grabación.',
  'reason.gif': 'Esto es una imagen GIF, no una grabación.',
  'reason.pdf': 'Esto es un documento PDF, no una grabación.',
  'reason.zip': 'Esto es un zip, no una grabación.',
  'reason.radio':
    'Esto parece una grabación de la propia radio, no de símbolos. Un [demodulator], como lritdemod o SatDump, hace ' +
    'primero símbolos de ella.',
  'reason.weak': 'Hay una señal ({how}, {frames} tramas), pero es demasiado débil: no se pudo restaurar ninguna trama.',
  'reason.noise': 'En el archivo no se encontró nada que este receptor conozca. Puede ser ruido, u otra cosa.',

  'contents.label': 'Contenido',
  'contents.pictures': 'Imágenes ({count})',
  'contents.texts': 'Textos ({count})',
  'contents.quality': 'Qué tan bien se recibió',
  'contents.files': 'Todos los archivos ({count})',
  'save.all': 'Guardar todo en un zip',
  'save.shelf': 'Guardar la colección',
  'save.recording': 'Guardar la grabación del ejemplo',
  'save.note':
    'La [shelf] es un archivo con todo lo que se recibió. Esta página lo vuelve a abrir, y el programa `lritstation` ' +
    'lo lee.',
  'pictures.title': 'Imágenes',
  'pictures.more': 'Mostrar más imágenes',
  'picture.open': 'Abrir {name}',
  'picture.none': 'Esta imagen no se puede mostrar aquí.',
  'picture.bounds': 'Está codificada, y los límites de sus paquetes se pierden en un archivo LRIT.',
  'picture.large': 'Es demasiado grande para este navegador.',
  'picture.size': '{columns} × {lines}',
  'picture.sent': 'tal como se envió',
  'picture.unread': 'El navegador no puede leerla.',
  'picture.segments.one': 'Falta una parte ([segment]): {numbers}.',
  'picture.segments.other': 'Faltan {count} partes ([segment:segmentos]): {numbers}.',
  'picture.packets': 'Se perdieron {fillers} de {packets} [packet:paquetes]; sus líneas están negras o repetidas.',
  'texts.title': 'Textos',
  'texts.more': 'Mostrar más textos',
  'text.cut': 'solo se muestra el principio',
  'text.save': 'Guardar el texto',
  'text.saves': 'Guardar el texto de {title}',
  'files.title': 'Todos los archivos',
  'files.more': 'Mostrar más archivos',
  'files.caption': 'Los archivos recibidos',
  'files.number': 'Archivo',
  'files.name': 'Nombre',
  'files.time': 'Hora (UTC)',
  'files.type': 'Tipo',
  'files.bytes': 'Bytes',
  'files.corrected': 'Bytes corregidos',
  'files.save': 'Guardar',
  'files.saves': 'Guardar el archivo {number} tal como se recibió',
  'file.name': 'archivo {number}',
  'type.picture': 'imagen',
  'type.text': 'texto',
  'type.zip': 'zip',
  'type.other': 'otro',
  'type.kept': 'tal como se recibió',
  'type.damaged': 'dañado: su suma de control es falsa',
  'note.mended': '{fillers} de {packets} paquetes perdidos',
  'note.encrypted': 'está cifrado',
  'note.header': 'su cabecera tiene un fallo',
  'note.zip.unreadable': 'el zip no se puede leer',
  'note.zip.many': 'el zip tiene demasiados archivos',
  'note.zip.packing': 'un archivo del zip está cifrado o comprimido de otra manera',
  'note.zip.large': 'el zip es demasiado grande una vez descomprimido',
  'note.zip.sum': 'la suma de control de un archivo del zip es falsa',
  'note.zip.empty': 'el zip no tiene ningún archivo',

  'view.label': 'Imagen a tamaño completo',
  'view.close': 'Cerrar',
  'view.loading': 'Cargando la imagen …',
  'view.larger': 'Ampliar',
  'view.smaller': 'Reducir',
  'view.fit': 'Imagen entera',
  'view.full': 'Tamaño completo (1:1)',
  'view.colours': 'Colores',
  'colours.grey': 'gris, como se envió',
  'colours.ir': 'infrarrojo: nubes frías en color',
  'colours.wv': 'vapor de agua: húmedo azul, seco marrón',
  'colours.heat': 'calor: caliente claro, frío oscuro',
  'view.light': 'Brillo',
  'view.contrast': 'Contraste',
  'view.reset': 'Restablecer',
  'view.lost': 'Marcar las líneas perdidas',
  'view.compare': 'Comparar con',
  'view.nothing': 'nada',
  'view.wipe': 'Borde entre las dos',
  'view.play.one': 'Reproducir',
  'view.play.other': 'Reproducir {count} imágenes',
  'view.pause': 'Pausa',
  'view.save': 'Guardar como PNG',
  'view.saves': 'Guardar la imagen {name} como PNG',
  'view.titled': 'con título y fecha',
  'view.shown': 'con estos colores',
  'view.help': 'Arrastra para moverla. Gira la rueda, o pulsa + y −, para ampliar o reducir.',
  'view.pixel': 'Columna {column}, línea {line}: {value} de {most}',

  'radio.sample': 'Probarlo como señal de radio',
  'radio.ask':
    'Esta es una grabación de la propia radio. Indica cuántas muestras por segundo tiene y pulsa «Demodular».',
  'radio.rate': 'Muestras por segundo',
  'radio.form': 'Formato de las muestras',
  'radio.downlink': 'Señal',
  'radio.start': 'Demodular',
  'radio.u8': 'bytes sin signo',
  'radio.s8': 'bytes con signo',
  'radio.s16': 'enteros de 16 bits',
  'radio.f32': 'números de coma flotante de 32 bits',
  'radio.goes-hrit': 'GOES HRIT, {symbols} símbolos por segundo',
  'radio.gk2a-lrit': 'GK-2A LRIT, {symbols} símbolos por segundo',
  'radio.goes-lrit': 'GOES-N LRIT (terminado), {symbols} símbolos por segundo',
  'radio.drawing': 'Preparando la señal de radio del ejemplo …',
  'radio.going':
    'Convirtiendo la señal de radio en [symbol:símbolos blandos] … ({form}, {rate} muestras por segundo, {downlink})',
  'radio.nothing':
    'En esta grabación no se encontró ninguna señal. Revisa abajo las muestras por segundo, su formato y la señal.',
  'radio.refused': 'A esta velocidad no se puede demodular la señal: cada símbolo necesita de 1,3 a 20 muestras.',
  'radio.title': 'La señal de la radio',
  'radio.locked':
    'Se recibe una señal, {ratio} dB más fuerte que el ruido (Es/N0). Su portadora está a {carrier} Hz del ' +
    'centro de la banda.',
  'radio.none': 'Todavía no se ha encontrado ninguna señal.',
  'radio.clipped': 'El {percent} % de los valores está en su límite: la radio tenía demasiada ganancia.',
  'radio.constellation':
    'Cada punto es un [symbol]. A la derecha significa 1, a la izquierda 0. El ruido dispersa los puntos; donde ' +
    'se tocan las dos nubes hay bits erróneos.',
  'radio.constellation.label': 'Constelación: puntos de los símbolos más recientes',
  'radio.spectrum':
    'Intensidad de la señal según la frecuencia, desde {most} MHz por debajo del centro hasta {most} MHz por ' +
    'encima. La joroba es el satélite; alrededor hay ruido.',
  'radio.spectrum.label': 'Espectro de las muestras más recientes',

  'quality.title': 'Qué tan bien se recibió',
  'quality.none': 'No se encontró ningún bloque de datos ([frame]).',
  'quality.lost': 'De {frames} bloques de datos ([frame:tramas]) se perdieron {lost} ({share} %).',
  'quality.again': '{count} se restauraron decodificándolos otra vez.',
  'quality.corrected':
    'En cada uno de los demás se corrigieron de media {mean} bytes equivocados; {most} es lo máximo que se puede de ' +
    'una vez.',
  'quality.counters': 'Sus números dicen cuáles faltan. En una grabación así los errores se corrigieron antes.',
  'quality.legend':
    'Línea y escala izquierda: bytes corregidos en una trama. Barras rojas y escala derecha: la parte de las tramas ' +
    'que se perdió. Haz clic en un lugar para ver qué ocurre allí.',
  'quality.legend.counters': 'Barras rojas y escala derecha: la parte de las tramas que se perdió.',
  'quality.axis': 'tramas',
  'quality.seconds': '{count} s a {rate} símbolos por segundo',

  'layers.title': 'Qué ocurre, capa por capa',
  'layers.intro': 'De los números a la imagen, con un bloque de datos ([frame]) de esta grabación. Elige cuál:',
  'layers.frame': 'Número de la trama',
  'layers.before': 'Una atrás',
  'layers.after': 'Una adelante',
  'layers.lost': 'Siguiente trama perdida',
  'layers.next': 'Siguiente trama con parte de una imagen',
  'layers.none': 'no hay tal trama',
  'layers.wait': 'Un momento …',
  'symbols.title': '1. Números de la radio ([symbol:símbolos blandos])',
  'symbols.text':
    'Un punto por cada uno de los 16.384 números de esta trama. Encima de la línea significa 1, debajo 0. Dos nubes ' +
    'muy separadas son una buena señal; donde se mezclan hay bits equivocados.',
  'symbols.wrong': '{count} de ellos ({share} %) tienen el signo equivocado.',
  'marker.title': '2. Dónde empieza la trama ([marker])',
  'marker.text':
    'Cada trama empieza con los mismos 32 bits, 1ACFFC1D. Están en el número {place} de la grabación: coinciden ' +
    '{hits} de los 52 números que se pueden comparar.',
  'marker.inverted': 'La señal está al revés (polaridad −), así que cada número se toma con el otro signo.',
  'frame.title': '3. Se corrigen los bytes equivocados ([reedsolomon])',
  'frame.text':
    'Por cada bit se enviaron dos números, y con todos ellos se calculan los bits más probables ([viterbi]). Forman ' +
    '1.020 bytes en cuatro palabras. Los 128 bytes del final sirven para encontrar y corregir errores: como máximo ' +
    '16 en cada palabra.',
  'frame.restored': 'Corregidos en las cuatro palabras: {words} bytes. Están marcados; señala uno para ver qué era.',
  'frame.lost':
    'En la palabra {word} hay más de 16 bytes equivocados. No se puede corregir, así que la trama se pierde.',
  'frame.again': 'El receptor restauró esta trama decodificándola otra vez, lo que aquí no se muestra.',
  'frame.label': 'Los 1.020 bytes de la trama, con los corregidos marcados',
  'frame.head': 'cabecera',
  'frame.data': 'datos',
  'frame.extra': 'bytes para corregir',
  'frame.wrong': 'corregido',
  'frame.byte': 'Byte {place}: llegó {before}, lo correcto es {after}',
  'frame.plain': 'Byte {place}: {after}',
  'packets.title': '4. Partes de archivos ([packet:paquetes])',
  'packets.text': 'La trama es la número {counter} del [channel:canal {channel}].',
  'packets.fill': 'Es relleno: el satélite no tenía nada que enviar en ese momento.',
  'packets.onward': 'Toda ella continúa un paquete que empezó antes.',
  'packets.start': 'Empieza en el byte',
  'packets.apid': 'Número de producto ([apid])',
  'packets.count': 'Número',
  'packets.part': 'Parte del archivo',
  'packets.size': 'Bytes',
  'packets.idle': 'relleno',
  'part.0': 'medio',
  'part.1': 'primera',
  'part.2': 'última',
  'part.3': 'todo',
  'file.title': '5. El archivo que forman ([lrit])',
  'file.text': '{name}: {packets} [packet:paquetes], de la trama {first} a la trama {last}.',
  'file.none': 'Ningún archivo de la colección tiene un paquete que empiece en esta trama.',
  'lines.title': '6. Sus líneas en la imagen',
  'lines.text': 'Las líneas {first} a {last} de la imagen {name} vienen de paquetes que empiezan en esta trama.',
  'lines.lost': 'Las líneas {first} a {last} de la imagen {name} se perdieron con ella.',
  'lines.whole': 'Las líneas {first} a {last} de la imagen {name} habrían estado aquí. Se perdieron.',
  'lost.title': 'Qué se perdió con ella',
  'lost.fill': 'Nada: la trama era relleno.',
  'lost.channel': 'Era del [channel:canal {channel}].',
  'lost.file':
    'A ningún archivo recibido le falta aquí una parte. Un archivo que empezara o terminara en ella no apareció.',
  'lost.unknown': 'No se puede saber qué llevaba, porque se perdieron demasiadas tramas a su alrededor.',

  'about.title': 'Sobre esta página: qué está demostrado y qué no',
  'about.intro':
    'El receptor de esta página es el de la estación terrestre Gomtasil, compilado para navegadores. Lo que promete ' +
    'lo demostró una máquina antes de compilarlo:',
  'about.keeps': 'No pierde nada: conserva exactamente los archivos que contiene la grabación, en su orden.',
  'about.stops':
    'Si se detiene en cualquier momento, los archivos que ya se mostraban siguen ahí. (El botón «Detener» lo termina ' +
    'en mitad de su trabajo, como un corte de luz.)',
  'about.corrects':
    'Una palabra de 255 bytes con dieciséis equivocados como máximo se corrige, y cualquier otra se rechaza.',
  'about.defined':
    'Contenga lo que contenga la grabación, el receptor no hace nada que su lenguaje deje sin definir, y cada orden ' +
    'llega a su fin.',
  'about.bytes':
    'Estas promesas son sobre los bytes que la página da y recibe. Donde una orden trabaja con bytes en memoria ' +
    '(detectar el código de línea, la imagen de un archivo, el ejemplo), valen hasta el último byte. Cuando recibe ' +
    'un archivo o comprueba una colección, funciones de la página leen y escriben trozo a trozo; sobre ellas la ' +
    'demostración no puede decir nada, como tampoco sobre archivos de verdad.',
  'about.trusted':
    'No demostrado, sino supuesto: que las reglas de la demostración y las normas de los satélites dicen lo que ' +
    'deben; el compilador, que primero hace código para otro procesador y después WebAssembly; tres funciones para ' +
    'números grandes; los bloques de memoria de la página; el navegador; y todo lo demás de esta página: qué código ' +
    'de línea se toma, cómo se unen los segmentos, qué se muestra como texto, cómo se abren los zips y los archivos ' +
    'LRIT, PNG, los colores, la curva, y las capas, que decodifican una trama por segunda vez para mostrarla.',
  'about.network':
    'La página no pide nada a ninguna red, y una regla en ella (una política de seguridad de contenido) se lo ' +
    'prohíbe. Al cerrarla se pierde todo lo que no hayas guardado.',
  'about.build': 'Versión: {version}',

  'glossary.title': 'Palabras',
  'term.recording': 'grabación',
  'about.recording': 'Un archivo con los números que dio un demodulador, uno por cada bit.',
  'term.demodulator': 'demodulador',
  'about.demodulator': 'Un programa que convierte la señal de una radio en números, uno por cada bit que llega.',
  'term.symbol': 'símbolo blando',
  'about.symbol': 'Un número por un bit tal como se oyó. Su signo dice 1 o 0, y su tamaño, lo seguro que es.',
  'term.linecode': 'código de línea',
  'about.linecode': 'Cómo los bits se hacen señal. nrz-l: el nivel es el bit. nrz-m: un cambio de nivel significa 1.',
  'term.viterbi': 'decodificador de Viterbi',
  'about.viterbi': 'Un método que encuentra los bits que mejor encajan con todos los números recibidos.',
  'term.frame': 'trama',
  'about.frame':
    'Un bloque de 1.024 bytes. Toda la señal se divide en estos bloques, y cada uno se puede corregir por sí solo.',
  'term.marker': 'marca de sincronismo',
  'about.marker': 'Los 32 bits 1ACFFC1D con los que empieza cada trama, para poder encontrarla.',
  'term.reedsolomon': 'código Reed-Solomon',
  'about.reedsolomon': '128 bytes más en cada trama, con los que se encuentran y corrigen los bytes equivocados.',
  'term.channel': 'canal virtual',
  'about.channel': 'Las tramas con el mismo número de canal van juntas, como los vagones de un tren.',
  'term.packet': 'paquete',
  'about.packet': 'Una parte de un archivo. Los paquetes están numerados, así que se nota si falta uno.',
  'term.apid': 'APID',
  'about.apid': 'Application process identifier: el número de la clase de producto a la que pertenece un paquete.',
  'term.segment': 'segmento',
  'about.segment': 'Una parte de una imagen que se envía como un archivo propio, casi siempre una franja a lo ancho.',
  'term.lrit': 'LRIT',
  'about.lrit':
    'Low and High Rate Information Transmission: el formato en que los satélites meteorológicos envían archivos.',
  'term.shelf': 'colección',
  'about.shelf': 'Un archivo (.shelf) con todo lo que se recibió, en el orden en que llegó.',
};

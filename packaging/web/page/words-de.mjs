// Texts of the page in German.

/** @type {import('./words.mjs').Table} */
export const GERMAN = {
  title: 'Empfänger für Wettersatelliten',
  skip: 'Zu den Bildern und Texten',
  intro:
    'Macht aus der Aufnahme eines Wettersatelliten Bilder und Texte. Alles geschieht auf diesem Computer, nichts ' +
    'wird verschickt. Die Seite läuft in Chrome oder Edge (ab Version 133) und in Firefox (ab 134). In Safari und ' +
    'auf iPhones und iPads geht es noch nicht.',
  language: 'Sprache',
  'start.title': 'Aufnahme wählen',
  'start.sample': 'Beispiel ausprobieren',
  'start.choose': 'Datei wählen',
  'start.help':
    'Oder Dateien hier ablegen: eine [recording], eine früher gespeicherte [shelf], oder `.lrit`-Dateien und Zips ' +
    'davon.',
  'sample.title': 'Das Beispiel schlechter machen',
  'sample.help':
    'Mehr Rauschen macht Bits falsch. Verlorene Blöcke sind Stücke des Signals, die fehlen, als wäre ein Vogel ' +
    'vorbeigeflogen.',
  'sample.noise': 'Rauschen: {percent} % des Signals',
  'sample.lost': 'Verlorene Datenblöcke ([frame:Frames]): {count} von {frames}',
  'recording.title': 'Was ist eine Aufnahme?',
  'recording.text':
    'Ein Wettersatellit sendet Bilder und Texte als Strom von Bits. Ein Funkempfänger und ein [demodulator] machen ' +
    'aus dem Signal Zahlen, eine für jedes Bit: Eine Zahl über null bedeutet wahrscheinlich 1, unter null 0; je ' +
    'weiter von null, desto sicherer. Eine Datei mit diesen Zahlen ([symbol:Soft-Symbolen]) ist eine Aufnahme. ' +
    'Solche Dateien machen zum Beispiel SatDump (`.soft`), goestools und GNU Radio.',
  'recording.sample':
    'Keine Aufnahme zur Hand? Dann das Beispiel ausprobieren. Ein Programm hat es gezeichnet: eine Erde mit Wolken ' +
    'und zwei Wettermeldungen, gesendet wie vom Satelliten GOES, mit Fehlern, die korrigiert werden müssen.',
  'recording.radio':
    'Auch Aufnahmen des Funksignals selbst (IQ-Abtastwerte) funktionieren: WAV-Dateien oder Rohdateien, deren ' +
    'Namen mit `.cu8`, `.cs16` oder `.cf32` enden oder die Abtastwerte pro Sekunde nennen, etwa `2400000Hz`.',
  'settings.title': 'Einstellungen',
  'settings.code': 'Wie die Bits gesendet werden (Leitungscode)',
  'settings.form': 'Dateiformat',
  'settings.find': 'automatisch erkennen',
  'settings.mend': 'Auch beschädigte Bilder zeigen',
  'settings.mend.help':
    'Wo Teile eines Bildes ([packet:Pakete]) verloren gingen, sind seine Zeilen schwarz oder wiederholt, und der ' +
    'Text darunter sagt es. Ohne diese Einstellung erscheint ein solches Bild gar nicht.',
  code: '{line}, g2 {g2}',
  'code.goes': '{line}, g2 {g2} (GOES)',
  'form.signed': 'Bytes mit Vorzeichen',
  'form.unsigned': 'Bytes ohne Vorzeichen',
  'form.bits': 'Bits, eines je Byte',
  'form.packed': 'Bits, acht je Byte',
  'form.s16le': 'ganze Zahlen von 16 Bit, niedriges Byte zuerst',
  'form.s16be': 'ganze Zahlen von 16 Bit, hohes Byte zuerst',
  'form.f32le': 'Kommazahlen von 32 Bit, niedriges Byte zuerst',
  'form.f32be': 'Kommazahlen von 32 Bit, hohes Byte zuerst',
  'form.frames': 'Frames von 892 Byte',
  'form.cadu': 'Frames von 1024 Byte mit Kennung',

  'state.title': 'Stand',
  'state.sample': 'Das Beispiel wird erzeugt …',
  'state.shelf': 'Die Sammlung wird geöffnet …',
  'state.files': 'Die Dateien werden geöffnet …',
  'state.finding': 'Erkenne, wie die Bits gesendet wurden …',
  'state.trying': 'Erkenne, wie die Bits gesendet wurden … Versuch: {how}',
  'state.receiving': 'Empfang läuft … ({how})',
  'state.done.all': 'Fertig. Alle {frames} Datenblöcke ([frame:Frames]) wurden empfangen. Darin: {files}.',
  'state.done.some':
    'Fertig. {restored} von {frames} Datenblöcken ([frame:Frames]) wurden empfangen, {lost} waren zu stark ' +
    'beschädigt. Darin: {files}.',
  'state.done.frames': 'Fertig. In den {frames} Datenblöcken ([frame:Frames]) der Aufnahme: {files}.',
  'state.nothing': 'Mit diesen Einstellungen wurde nichts gefunden. Bitte beide auf „automatisch erkennen“ stellen.',
  'state.stopped': 'Angehalten. Alles, was bis dahin empfangen wurde, bleibt erhalten.',
  'state.failed': 'Etwas ist schiefgegangen: {reason}',
  'state.early': 'Der Empfang endete vorzeitig: {reason}',
  'state.trouble': 'Eine Datei kann nicht gezeigt werden: {reason}',
  'state.memory': 'der Browser hat keinen Speicher mehr',
  'state.old':
    'Dieser Browser kann den Empfänger nicht ausführen: Er braucht 64-Bit-Speicher, wie ihn Chrome und Edge ab 133 ' +
    'und Firefox ab 134 haben.',
  'opened.whole': 'Die [shelf] ist offen, und jede Datei darin ist heil.',
  'opened.empty': 'Die [shelf] ist offen. Sie enthält keine Datei.',
  'opened.bad.one': 'Die [shelf] ist offen. Eine ihrer Dateien ist beschädigt; die Liste unten kennzeichnet sie.',
  'opened.bad.other': 'Die [shelf] ist offen. {count} ihrer Dateien sind beschädigt; die Liste unten kennzeichnet sie.',
  'opened.torn.one':
    'Diese [shelf] bricht ab, vielleicht weil sie nicht ganz kopiert wurde. Die eine Datei davor wird gezeigt.',
  'opened.torn.other':
    'Diese [shelf] bricht ab, vielleicht weil sie nicht ganz kopiert wurde. Die {count} Dateien davor werden gezeigt.',
  'opened.failed': 'Die Sammlung kann nicht geöffnet werden: {reason}',
  'opened.files.one': 'Eine [lrit:LRIT-Datei] ist offen.',
  'opened.files.other': '{count} [lrit:LRIT-Dateien] sind offen.',
  'opened.left.one': 'Eine andere Datei wurde ausgelassen.',
  'opened.left.other': '{count} andere Dateien wurden ausgelassen.',
  'opened.none': 'Darin ist keine LRIT- oder HRIT-Datei.',
  'files.one': 'eine Datei',
  'files.other': '{count} Dateien',
  'time.seconds': '{share} %, noch etwa {count} Sekunden. Dateien bisher: {files}',
  'time.minutes': '{share} %, noch etwa {count} Minuten. Dateien bisher: {files}',
  'time.none': '{share} %. Dateien bisher: {files}',
  'progress.label': 'Wie viel von der Aufnahme gelesen ist',
  stop: 'Anhalten',
  'tries.title': 'Was versucht wurde',
  'tries.restored': '{how}: {restored} von {frames} Frames wiederhergestellt',
  'tries.nothing': '{how}: nichts gefunden',
  'tries.middle': 'ab der Mitte, {how}',
  'tries.both':
    'Als Bytes ohne Vorzeichen gelesen ist das Ergebnis dasselbe. Gehen viele Frames verloren, dann „Bytes ohne ' +
    'Vorzeichen“ wählen.',

  'reason.empty': 'Die Datei ist leer.',
  'reason.short': 'Die Datei ist sehr kurz.',
  'reason.jpeg': 'Das ist ein JPEG-Bild, keine Aufnahme.',
  'reason.png': 'Das ist ein PNG-Bild, keine Aufnahme.',
  'reason.gif': 'Das ist ein GIF-Bild, keine Aufnahme.',
  'reason.pdf': 'Das ist ein PDF-Dokument, keine Aufnahme.',
  'reason.zip': 'Das ist ein Zip, keine Aufnahme.',
  'reason.radio':
    'Das scheint eine Aufnahme des Funksignals selbst zu sein, nicht von Symbolen. Ein [demodulator] wie lritdemod ' +
    'oder SatDump macht zuerst Symbole daraus.',
  'reason.weak':
    'Ein Signal ist da ({how}, {frames} Frames), aber zu schwach: Kein Frame konnte wiederhergestellt werden.',
  'reason.noise':
    'In der Datei wurde nichts gefunden, was dieser Empfänger kennt. Vielleicht ist es Rauschen oder etwas anderes.',

  'contents.label': 'Inhalt',
  'contents.pictures': 'Bilder ({count})',
  'contents.texts': 'Texte ({count})',
  'contents.quality': 'Wie gut der Empfang war',
  'contents.files': 'Alle Dateien ({count})',
  'save.all': 'Alles als Zip speichern',
  'save.shelf': 'Sammlung speichern',
  'save.recording': 'Aufnahme des Beispiels speichern',
  'save.note':
    'Die [shelf] ist eine Datei mit allem, was empfangen wurde. Diese Seite öffnet sie wieder, und das Programm ' +
    '`lritstation` liest sie.',
  'pictures.title': 'Bilder',
  'pictures.more': 'Mehr Bilder zeigen',
  'picture.open': '{name} öffnen',
  'picture.none': 'Dieses Bild kann hier nicht gezeigt werden.',
  'picture.bounds': 'Es ist codiert, und die Grenzen seiner Pakete sind in einer LRIT-Datei verloren.',
  'picture.large': 'Es ist zu groß für diesen Browser.',
  'picture.size': '{columns} × {lines}',
  'picture.sent': 'wie gesendet',
  'picture.unread': 'Der Browser kann es nicht lesen.',
  'picture.segments.one': 'Ein Teil ([segment]) fehlt: {numbers}.',
  'picture.segments.other': '{count} Teile ([segment:Segmente]) fehlen: {numbers}.',
  'picture.packets':
    '{fillers} von {packets} [packet:Paketen] gingen verloren; ihre Zeilen sind schwarz oder wiederholt.',
  'texts.title': 'Texte',
  'texts.more': 'Mehr Texte zeigen',
  'text.cut': 'nur der Anfang wird gezeigt',
  'text.save': 'Text speichern',
  'text.saves': 'Text von {title} speichern',
  'files.title': 'Alle Dateien',
  'files.more': 'Mehr Dateien zeigen',
  'files.caption': 'Die empfangenen Dateien',
  'files.number': 'Datei',
  'files.name': 'Name',
  'files.time': 'Zeit (UTC)',
  'files.type': 'Art',
  'files.bytes': 'Bytes',
  'files.corrected': 'Korrigierte Bytes',
  'files.save': 'Speichern',
  'files.saves': 'Datei {number} speichern, wie sie empfangen wurde',
  'file.name': 'Datei {number}',
  'type.picture': 'Bild',
  'type.text': 'Text',
  'type.zip': 'Zip',
  'type.other': 'anderes',
  'type.kept': 'wie empfangen',
  'type.damaged': 'beschädigt: Die Prüfsumme stimmt nicht',
  'note.mended': '{fillers} von {packets} Paketen verloren',
  'note.encrypted': 'verschlüsselt',
  'note.header': 'der Kopf hat einen Fehler',
  'note.zip.unreadable': 'das Zip kann nicht gelesen werden',
  'note.zip.many': 'das Zip hat zu viele Dateien',
  'note.zip.packing': 'eine Datei im Zip ist verschlüsselt oder anders gepackt',
  'note.zip.large': 'das Zip ist ausgepackt zu groß',
  'note.zip.sum': 'die Prüfsumme einer Datei im Zip stimmt nicht',
  'note.zip.empty': 'das Zip enthält keine Datei',

  'view.label': 'Bild in voller Größe',
  'view.close': 'Schließen',
  'view.loading': 'Das Bild wird geladen …',
  'view.larger': 'Größer',
  'view.smaller': 'Kleiner',
  'view.fit': 'Ganzes Bild',
  'view.full': 'Volle Größe (1:1)',
  'view.colours': 'Farben',
  'colours.grey': 'grau, wie gesendet',
  'colours.ir': 'Infrarot: kalte Wolken farbig',
  'colours.wv': 'Wasserdampf: feucht blau, trocken braun',
  'colours.heat': 'Wärme: warm hell, kalt dunkel',
  'view.light': 'Helligkeit',
  'view.contrast': 'Kontrast',
  'view.reset': 'Zurücksetzen',
  'view.lost': 'Verlorene Zeilen markieren',
  'view.compare': 'Vergleichen mit',
  'view.nothing': 'nichts',
  'view.wipe': 'Grenze zwischen beiden',
  'view.play.one': 'Abspielen',
  'view.play.other': '{count} Bilder abspielen',
  'view.pause': 'Anhalten',
  'view.save': 'Als PNG speichern',
  'view.saves': 'Bild {name} als PNG speichern',
  'view.titled': 'mit Titel und Datum',
  'view.shown': 'mit diesen Farben',
  'view.help': 'Zum Verschieben ziehen. Zum Vergrößern das Mausrad drehen oder + und − drücken.',
  'view.pixel': 'Spalte {column}, Zeile {line}: {value} von {most}',

  'radio.sample': 'Als Funksignal ausprobieren',
  'radio.ask':
    'Das ist eine Aufnahme des Funksignals selbst. Gib an, wie viele Abtastwerte sie pro Sekunde hat, und ' +
    'klicke auf „Demodulieren“.',
  'radio.rate': 'Abtastwerte pro Sekunde',
  'radio.form': 'Form der Abtastwerte',
  'radio.downlink': 'Signal',
  'radio.start': 'Demodulieren',
  'radio.u8': 'Bytes ohne Vorzeichen',
  'radio.s8': 'Bytes mit Vorzeichen',
  'radio.s16': '16-Bit-Ganzzahlen',
  'radio.f32': '32-Bit-Gleitkommazahlen',
  'radio.goes-hrit': 'GOES HRIT, {symbols} Symbole pro Sekunde',
  'radio.gk2a-lrit': 'GK-2A LRIT, {symbols} Symbole pro Sekunde',
  'radio.goes-lrit': 'GOES-N LRIT (beendet), {symbols} Symbole pro Sekunde',
  'radio.drawing': 'Das Funksignal des Beispiels wird erzeugt …',
  'radio.going':
    'Aus dem Funksignal werden [symbol:Soft-Symbole] … ({form}, {rate} Abtastwerte pro Sekunde, {downlink})',
  'radio.nothing':
    'In dieser Aufnahme wurde kein Signal gefunden. Prüfe unten die Abtastwerte pro Sekunde, ihre Form und das Signal.',
  'radio.refused':
    'Mit dieser Rate lässt sich das Signal nicht demodulieren: Jedes Symbol braucht 1,3 bis 20 Abtastwerte.',
  'radio.title': 'Das Funksignal',
  'radio.locked':
    'Ein Signal wird empfangen, {ratio} dB stärker als das Rauschen (Es/N0). Sein Träger liegt {carrier} Hz ' +
    'neben der Mitte des Bandes.',
  'radio.none': 'Bisher wurde kein Signal gefunden.',
  'radio.clipped': '{percent} % der Werte stehen am Anschlag: Der Empfänger war zu laut eingestellt.',
  'radio.constellation':
    'Jeder Punkt ist ein [symbol]. Rechts bedeutet 1, links 0. Rauschen verstreut die Punkte; wo sich die ' +
    'beiden Wolken treffen, werden Bits falsch.',
  'radio.constellation.label': 'Konstellation: Punkte der neuesten Symbole',
  'radio.spectrum':
    'Stärke des Signals nach Frequenz, von {most} MHz unter der Mitte bis {most} MHz darüber. Der Buckel ist ' +
    'der Satellit; daneben ist Rauschen.',
  'radio.spectrum.label': 'Spektrum der neuesten Abtastwerte',

  'quality.title': 'Wie gut der Empfang war',
  'quality.none': 'Kein Datenblock ([frame]) wurde gefunden.',
  'quality.lost': 'Von {frames} Datenblöcken ([frame:Frames]) gingen {lost} verloren ({share} %).',
  'quality.again': '{count} wurden durch nochmaliges Decodieren wiederhergestellt.',
  'quality.corrected':
    'In jedem der anderen wurden im Mittel {mean} falsche Bytes korrigiert; {most} sind das Meiste, was in einem ' +
    'Durchgang geht.',
  'quality.counters':
    'Ihre Nummern sagen, welche fehlen. In einer solchen Aufnahme wurden Fehler schon vorher korrigiert.',
  'quality.legend':
    'Linie und linke Skala: Bytes, die in einem Frame korrigiert wurden. Rote Balken und rechte Skala: Anteil der ' +
    'verlorenen Frames. Ein Klick auf eine Stelle zeigt, was dort geschieht.',
  'quality.legend.counters': 'Rote Balken und rechte Skala: Anteil der verlorenen Frames.',
  'quality.axis': 'Frames',
  'quality.seconds': '{count} s bei {rate} Symbolen in der Sekunde',

  'layers.title': 'Was geschieht, Schicht für Schicht',
  'layers.intro': 'Von Zahlen zum Bild, an einem Datenblock ([frame]) dieser Aufnahme. Welcher soll es sein?',
  'layers.frame': 'Nummer des Frames',
  'layers.before': 'Einen zurück',
  'layers.after': 'Einen weiter',
  'layers.lost': 'Nächster verlorener Frame',
  'layers.next': 'Nächster Frame mit einem Stück Bild',
  'layers.none': 'kein solcher Frame',
  'layers.wait': 'Einen Moment …',
  'symbols.title': '1. Zahlen aus dem Funkempfänger ([symbol:Soft-Symbole])',
  'symbols.text':
    'Ein Punkt für jede der 16.384 Zahlen dieses Frames. Über der Linie bedeutet sie 1, darunter 0. Zwei Wolken weit ' +
    'auseinander sind ein gutes Signal; wo sie sich überlappen, sind Bits falsch.',
  'symbols.wrong': '{count} davon ({share} %) haben das falsche Vorzeichen.',
  'marker.title': '2. Wo der Frame beginnt ([marker])',
  'marker.text':
    'Jeder Frame beginnt mit denselben 32 Bits, 1ACFFC1D. Sie stehen an Stelle {place} der Aufnahme: {hits} der 52 ' +
    'Zahlen, die sich vergleichen lassen, stimmen.',
  'marker.inverted':
    'Das Signal steht auf dem Kopf (Polarität −), deshalb wird jede Zahl mit dem anderen Vorzeichen genommen.',
  'frame.title': '3. Falsche Bytes werden korrigiert ([reedsolomon])',
  'frame.text':
    'Für jedes Bit wurden zwei Zahlen gesendet, und aus allen werden die wahrscheinlichsten Bits berechnet ' +
    '([viterbi]). Sie ergeben 1.020 Bytes in vier Wörtern. Mit den 128 Bytes am Ende lassen sich Fehler finden und ' +
    'korrigieren: höchstens 16 in jedem Wort.',
  'frame.restored':
    'In den vier Wörtern korrigiert: {words} Bytes. Sie sind markiert; zeigt man auf eines, steht da, was es war.',
  'frame.lost':
    'Im Wort {word} sind mehr als 16 Bytes falsch. Es lässt sich nicht korrigieren, und der Frame ist verloren.',
  'frame.again':
    'Der Empfänger hat diesen Frame durch nochmaliges Decodieren wiederhergestellt, das hier nicht gezeigt wird.',
  'frame.label': 'Die 1.020 Bytes des Frames, die korrigierten markiert',
  'frame.head': 'Kopf',
  'frame.data': 'Daten',
  'frame.extra': 'Bytes zum Korrigieren',
  'frame.wrong': 'korrigiert',
  'frame.byte': 'Byte {place}: {before} kam an, {after} ist richtig',
  'frame.plain': 'Byte {place}: {after}',
  'packets.title': '4. Teile von Dateien ([packet:Pakete])',
  'packets.text': 'Der Frame hat die Nummer {counter} auf [channel:Kanal {channel}].',
  'packets.fill': 'Er ist Füllung: Der Satellit hatte in diesem Moment nichts zu senden.',
  'packets.onward': 'Er setzt als Ganzes ein Paket fort, das früher begann.',
  'packets.start': 'Beginnt bei Byte',
  'packets.apid': 'Produktnummer ([apid])',
  'packets.count': 'Nummer',
  'packets.part': 'Teil der Datei',
  'packets.size': 'Bytes',
  'packets.idle': 'Füllung',
  'part.0': 'Mitte',
  'part.1': 'erster',
  'part.2': 'letzter',
  'part.3': 'alles',
  'file.title': '5. Die Datei, die daraus wird ([lrit])',
  'file.text': '{name}: {packets} [packet:Pakete], von Frame {first} bis Frame {last}.',
  'file.none': 'Keine Datei der Sammlung hat ein Paket, das in diesem Frame beginnt.',
  'lines.title': '6. Ihre Zeilen im Bild',
  'lines.text': 'Die Zeilen {first} bis {last} des Bildes {name} stammen aus Paketen, die in diesem Frame beginnen.',
  'lines.lost': 'Die Zeilen {first} bis {last} des Bildes {name} sind mit ihm verloren.',
  'lines.whole': 'Die Zeilen {first} bis {last} des Bildes {name} wären hier gewesen. Sie sind verloren.',
  'lost.title': 'Was mit ihm verloren ging',
  'lost.fill': 'Nichts: Der Frame war Füllung.',
  'lost.channel': 'Er gehörte zu [channel:Kanal {channel}].',
  'lost.file':
    'Keiner empfangenen Datei fehlt hier ein Teil. Eine Datei, die in ihm begann oder endete, ist nicht erschienen.',
  'lost.unknown': 'Was er enthielt, lässt sich nicht sagen, weil um ihn herum zu viele Frames verloren sind.',

  'about.title': 'Über diese Seite: was bewiesen ist und was nicht',
  'about.intro':
    'Der Empfänger in dieser Seite ist der der Bodenstation Gomtasil, übersetzt für Browser. Was er verspricht, ' +
    'wurde von einer Maschine bewiesen, bevor er übersetzt wurde:',
  'about.keeps': 'Er verliert nichts: Er behält genau die Dateien, die die Aufnahme enthält, in ihrer Reihenfolge.',
  'about.stops':
    'Wird er in irgendeinem Augenblick angehalten, so sind die Dateien, die vorher gezeigt wurden, noch da. (Der ' +
    'Knopf „Anhalten“ beendet ihn mitten in der Arbeit, wie ein Stromausfall.)',
  'about.corrects': 'Ein Wort von 255 Bytes mit höchstens sechzehn falschen wird korrigiert, jedes andere abgelehnt.',
  'about.defined':
    'Was auch immer die Aufnahme enthält, der Empfänger tut nichts, was seine Sprache offen lässt, und jeder Befehl ' +
    'kommt an ein Ende.',
  'about.bytes':
    'Diese Versprechen gelten für Bytes, die die Seite gibt und bekommt. Wo ein Befehl über Bytes im Speicher läuft ' +
    '(Erkennen des Leitungscodes, das Bild einer Datei, das Beispiel), gelten sie aufs Byte genau. Wenn er eine ' +
    'Datei empfängt oder eine Sammlung prüft, lesen und schreiben Funktionen der Seite Stück für Stück; über diese ' +
    'kann der Beweis nichts sagen, wie über echte Dateien auch nicht.',
  'about.trusted':
    'Nicht bewiesen, sondern vorausgesetzt: dass die Regeln des Beweises und die Standards der Satelliten sagen, was ' +
    'sie sollen; der Compiler, der zuerst Code für einen anderen Prozessor macht und dann WebAssembly; drei ' +
    'Funktionen für große Zahlen; die Speicherblöcke der Seite; der Browser; und alles andere in dieser Seite: ' +
    'welcher Leitungscode genommen wird, wie Segmente zusammengesetzt werden, was als Text gezeigt wird, wie Zips ' +
    'und LRIT-Dateien geöffnet werden, PNG, Farben, die Kurve, und die Schichten, die einen Frame noch einmal ' +
    'decodieren, um ihn zu zeigen.',
  'about.network':
    'Die Seite fragt kein Netz nach irgendetwas, und eine Regel in ihr (eine Content Security Policy) verbietet es ' +
    'ihr. Wird sie geschlossen, so ist alles verloren, was nicht gespeichert wurde.',
  'about.build': 'Version: {version}',

  'glossary.title': 'Wörter',
  'term.recording': 'Aufnahme',
  'about.recording': 'Eine Datei mit den Zahlen eines Demodulators, eine für jedes Bit.',
  'term.demodulator': 'Demodulator',
  'about.demodulator': 'Ein Programm, das aus dem Funksignal Zahlen macht, eine für jedes Bit, das ankommt.',
  'term.symbol': 'Soft-Symbol',
  'about.symbol':
    'Eine Zahl für ein Bit, wie es gehört wurde. Ihr Vorzeichen sagt 1 oder 0, ihre Größe, wie sicher das ist.',
  'term.linecode': 'Leitungscode',
  'about.linecode':
    'Wie aus Bits ein Signal wird. nrz-l: Der Pegel ist das Bit. nrz-m: Ein Wechsel des Pegels bedeutet 1.',
  'term.viterbi': 'Viterbi-Decoder',
  'about.viterbi': 'Ein Verfahren, das die Bits findet, die am besten zu allen empfangenen Zahlen passen.',
  'term.frame': 'Frame',
  'about.frame':
    'Ein Block von 1.024 Bytes. Das ganze Signal ist in solche Blöcke geteilt, und jeder kann für sich korrigiert ' +
    'werden.',
  'term.marker': 'Synchronwort',
  'about.marker': 'Die 32 Bits 1ACFFC1D, mit denen jeder Frame beginnt, damit man ihn findet.',
  'term.reedsolomon': 'Reed-Solomon-Code',
  'about.reedsolomon': '128 weitere Bytes in jedem Frame, mit denen falsche Bytes gefunden und korrigiert werden.',
  'term.channel': 'virtueller Kanal',
  'about.channel': 'Frames mit derselben Kanalnummer gehören zusammen, wie die Wagen eines Zuges.',
  'term.packet': 'Paket',
  'about.packet': 'Ein Teil einer Datei. Pakete sind nummeriert, deshalb fällt ein fehlendes auf.',
  'term.apid': 'APID',
  'about.apid': 'Application process identifier: die Nummer der Art von Produkt, zu der ein Paket gehört.',
  'term.segment': 'Segment',
  'about.segment': 'Ein Teil eines Bildes, der als eigene Datei gesendet wird, meist ein Streifen quer darüber.',
  'term.lrit': 'LRIT',
  'about.lrit': 'Low and High Rate Information Transmission: das Format, in dem Wettersatelliten Dateien senden.',
  'term.shelf': 'Sammlung',
  'about.shelf': 'Eine Datei (.shelf) mit allem, was empfangen wurde, in der Reihenfolge, in der es kam.',
};

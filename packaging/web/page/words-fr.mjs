// Texts of the page in French.

/** @type {import('./words.mjs').Table} */
export const FRENCH = {
  title: 'Récepteur de satellites météo',
  skip: 'Aller aux images et aux textes',
  intro:
    "Transforme l'enregistrement d'un satellite météo en images et en textes. Tout se passe sur cet ordinateur ; " +
    "rien n'est envoyé ailleurs. Fonctionne avec Chrome ou Edge (version 133 ou plus récente) et Firefox (134 ou " +
    'plus récente). Safari, les iPhone et les iPad ne le peuvent pas encore.',
  language: 'Langue',
  'start.title': 'Choisis un enregistrement',
  'start.sample': "Essayer l'exemple",
  'start.choose': 'Choisir un fichier',
  'start.help':
    'Ou dépose des fichiers ici : un [recording], une [shelf] déjà sauvegardée, ou des fichiers `.lrit` et des zips ' +
    'qui en contiennent.',
  'sample.title': "Abîmer l'exemple",
  'sample.help':
    'Plus de bruit rend des bits faux. Les blocs perdus sont des morceaux du signal qui manquent, comme si un oiseau ' +
    'passait.',
  'sample.noise': 'Bruit : {percent} % du signal',
  'sample.lost': 'Blocs de données perdus ([frame:trames]) : {count} sur {frames}',
  'recording.title': "Qu'est-ce qu'un enregistrement ?",
  'recording.text':
    'Un satellite météo envoie des images et des textes comme un flot de bits. Une radio et un [demodulator] ' +
    'transforment son signal en nombres, un pour chaque bit qui arrive : un nombre au-dessus de zéro signifie sans ' +
    "doute 1, au-dessous 0 ; plus il est loin de zéro, plus c'est sûr. Un fichier de ces nombres ([symbol:symboles " +
    'souples]) est un enregistrement. SatDump (`.soft`), goestools et GNU Radio en font.',
  'recording.sample':
    "Pas d'enregistrement ? Essaie l'exemple. Un programme l'a dessiné : une Terre avec des nuages et deux " +
    'bulletins, envoyés comme le fait le satellite GOES, avec des erreurs à corriger.',
  'recording.radio':
    'Les enregistrements de la radio elle-même (échantillons IQ) conviennent aussi : des fichiers WAV, ou des ' +
    'fichiers bruts dont le nom se termine par `.cu8`, `.cs16` ou `.cf32` ou indique les échantillons par ' +
    'seconde, comme `2400000Hz`.',
  'settings.title': 'Réglages',
  'settings.code': 'Comment les bits sont envoyés (code en ligne)',
  'settings.form': 'Format du fichier',
  'settings.find': 'détecter automatiquement',
  'settings.mend': 'Montrer aussi les images abîmées',
  'settings.mend.help':
    "Là où des parties d'une image ([packet:paquets]) sont perdues, ses lignes sont noires ou répétées, et le texte " +
    "au-dessous le dit. Sans ce réglage, une telle image n'apparaît pas.",
  code: '{line}, g2 {g2}',
  'code.goes': '{line}, g2 {g2} (GOES)',
  'form.signed': 'octets signés',
  'form.unsigned': 'octets non signés',
  'form.bits': 'bits, un par octet',
  'form.packed': 'bits, huit par octet',
  'form.s16le': 'entiers de 16 bits, octet faible en premier',
  'form.s16be': 'entiers de 16 bits, octet fort en premier',
  'form.f32le': 'nombres à virgule de 32 bits, octet faible en premier',
  'form.f32be': 'nombres à virgule de 32 bits, octet fort en premier',
  'form.frames': 'trames de 892 octets',
  'form.cadu': 'trames de 1024 octets avec leur marque',

  'state.title': 'État',
  'state.sample': "Préparation de l'exemple …",
  'state.shelf': 'Ouverture de la collection …',
  'state.files': 'Ouverture des fichiers …',
  'state.finding': 'Détection de la façon dont les bits sont envoyés …',
  'state.trying': 'Détection de la façon dont les bits sont envoyés … essai : {how}',
  'state.receiving': 'Réception … ({how})',
  'state.done.all':
    'Terminé. Les {frames} blocs de données ([frame:trames]) ont tous été reçus, et contenaient {files}.',
  'state.done.some':
    'Terminé. {restored} blocs de données ([frame:trames]) sur {frames} ont été reçus ; {lost} étaient trop abîmés. ' +
    'Ils contenaient {files}.',
  'state.done.frames':
    "Terminé. Les {frames} blocs de données ([frame:trames]) de l'enregistrement contenaient {files}.",
  'state.nothing': "Rien n'a été trouvé avec ces réglages. Mets les deux sur « détecter automatiquement ».",
  'state.stopped': "Arrêté. Tout ce qui a été reçu jusqu'ici est gardé.",
  'state.failed': "Quelque chose n'a pas marché : {reason}",
  'state.early': "Le récepteur s'est arrêté trop tôt : {reason}",
  'state.trouble': 'Un fichier ne peut pas être montré : {reason}',
  'state.memory': "le navigateur n'a plus de mémoire",
  'state.old':
    "Ce navigateur ne peut pas faire marcher le récepteur : il faut une mémoire de 64 bits, qu'ont Chrome ou Edge " +
    '133, Firefox 134 et les suivants.',
  'opened.whole': 'La [shelf] est ouverte, et tous ses fichiers sont intacts.',
  'opened.empty': "La [shelf] est ouverte. Elle n'a aucun fichier.",
  'opened.bad.one': 'La [shelf] est ouverte. Un de ses fichiers est abîmé ; la liste ci-dessous le signale.',
  'opened.bad.other': 'La [shelf] est ouverte. {count} de ses fichiers sont abîmés ; la liste ci-dessous les signale.',
  'opened.torn.one':
    "Cette [shelf] s'interrompt, peut-être parce qu'elle n'a pas été copiée en entier. Le seul fichier d'avant est " +
    'montré.',
  'opened.torn.other':
    "Cette [shelf] s'interrompt, peut-être parce qu'elle n'a pas été copiée en entier. Les {count} fichiers d'avant " +
    'sont montrés.',
  'opened.failed': 'La collection ne peut pas être ouverte : {reason}',
  'opened.files.one': 'Un [lrit:fichier LRIT] est ouvert.',
  'opened.files.other': '{count} [lrit:fichiers LRIT] sont ouverts.',
  'opened.left.one': 'Un autre fichier a été laissé de côté.',
  'opened.left.other': '{count} autres fichiers ont été laissés de côté.',
  'opened.none': 'Il ne contient aucun fichier LRIT ou HRIT.',
  'files.one': 'un fichier',
  'files.other': '{count} fichiers',
  'time.seconds': "{share} %, encore {count} secondes environ. Fichiers jusqu'ici : {files}",
  'time.minutes': "{share} %, encore {count} minutes environ. Fichiers jusqu'ici : {files}",
  'time.none': "{share} %. Fichiers jusqu'ici : {files}",
  'progress.label': "Quelle part de l'enregistrement est lue",
  stop: 'Arrêter',
  'tries.title': 'Ce qui a été essayé',
  'tries.restored': '{how} : {restored} trames restaurées sur {frames}',
  'tries.nothing': '{how} : rien trouvé',
  'tries.middle': 'à partir du milieu, {how}',
  'tries.both':
    'Comme octets non signés, le résultat est le même. Si beaucoup de trames sont perdues, choisis « octets non ' +
    'signés ».',

  'reason.empty': 'Le fichier est vide.',
  'reason.short': 'Le fichier est très court.',
  'reason.jpeg': "C'est une image JPEG, pas un enregistrement.",
  'reason.png': "C'est une image PNG, pas un enregistrement.",
  'reason.gif': "C'est une image GIF, pas un enregistrement.",
  'reason.pdf': "C'est un document PDF, pas un enregistrement.",
  'reason.zip': "C'est un zip, pas un enregistrement.",
  'reason.radio':
    'Cela semble être un enregistrement de la radio elle-même, pas de symboles. Un [demodulator], comme lritdemod ou ' +
    "SatDump, en fait d'abord des symboles.",
  'reason.weak': "Un signal est là ({how}, {frames} trames), mais trop faible : aucune trame n'a pu être restaurée.",
  'reason.noise':
    "Rien de ce que ce récepteur connaît n'a été trouvé dans le fichier. C'est peut-être du bruit, ou autre chose.",

  'contents.label': 'Sommaire',
  'contents.pictures': 'Images ({count})',
  'contents.texts': 'Textes ({count})',
  'contents.quality': 'Qualité de la réception',
  'contents.files': 'Tous les fichiers ({count})',
  'save.all': 'Tout sauvegarder dans un zip',
  'save.shelf': 'Sauvegarder la collection',
  'save.recording': "Sauvegarder l'enregistrement de l'exemple",
  'save.note':
    'La [shelf] est un fichier avec tout ce qui a été reçu. Cette page le rouvre, et le programme `lritstation` le ' +
    'lit.',
  'pictures.title': 'Images',
  'pictures.more': "Montrer plus d'images",
  'picture.open': 'Ouvrir {name}',
  'picture.none': 'Cette image ne peut pas être montrée ici.',
  'picture.bounds': 'Elle est codée, et les limites de ses paquets sont perdues dans un fichier LRIT.',
  'picture.large': 'Elle est trop grande pour ce navigateur.',
  'picture.size': '{columns} × {lines}',
  'picture.sent': 'telle quelle',
  'picture.unread': 'Le navigateur ne peut pas la lire.',
  'picture.segments.one': 'Une partie ([segment]) manque : {numbers}.',
  'picture.segments.other': '{count} parties ([segment:segments]) manquent : {numbers}.',
  'picture.packets': '{fillers} [packet:paquets] sur {packets} ont été perdus ; leurs lignes sont noires ou répétées.',
  'texts.title': 'Textes',
  'texts.more': 'Montrer plus de textes',
  'text.cut': 'seul le début est montré',
  'text.save': 'Sauvegarder le texte',
  'text.saves': 'Sauvegarder le texte de {title}',
  'files.title': 'Tous les fichiers',
  'files.more': 'Montrer plus de fichiers',
  'files.caption': 'Les fichiers reçus',
  'files.number': 'Fichier',
  'files.name': 'Nom',
  'files.time': 'Heure (UTC)',
  'files.type': 'Type',
  'files.bytes': 'Octets',
  'files.corrected': 'Octets corrigés',
  'files.save': 'Sauvegarder',
  'files.saves': "Sauvegarder le fichier {number} tel qu'il a été reçu",
  'file.name': 'fichier {number}',
  'type.picture': 'image',
  'type.text': 'texte',
  'type.zip': 'zip',
  'type.other': 'autre',
  'type.kept': 'tel que reçu',
  'type.damaged': 'abîmé : sa somme de contrôle est fausse',
  'note.mended': '{fillers} paquets sur {packets} perdus',
  'note.encrypted': 'il est chiffré',
  'note.header': 'son en-tête a un défaut',
  'note.zip.unreadable': 'le zip ne peut pas être lu',
  'note.zip.many': 'le zip a trop de fichiers',
  'note.zip.packing': "un fichier du zip est chiffré ou compressé d'une autre façon",
  'note.zip.large': 'le zip est trop grand une fois décompressé',
  'note.zip.sum': "la somme de contrôle d'un fichier du zip est fausse",
  'note.zip.empty': "le zip n'a aucun fichier",

  'view.label': 'Image en taille réelle',
  'view.close': 'Fermer',
  'view.loading': "Chargement de l'image …",
  'view.larger': 'Agrandir',
  'view.smaller': 'Réduire',
  'view.fit': 'Image entière',
  'view.full': 'Taille réelle (1:1)',
  'view.colours': 'Couleurs',
  'colours.grey': 'gris, comme envoyé',
  'colours.ir': 'infrarouge : nuages froids en couleurs',
  'colours.wv': "vapeur d'eau : humide bleu, sec brun",
  'colours.heat': 'chaleur : chaud clair, froid sombre',
  'view.light': 'Luminosité',
  'view.contrast': 'Contraste',
  'view.reset': 'Réinitialiser',
  'view.lost': 'Marquer les lignes perdues',
  'view.compare': 'Comparer avec',
  'view.nothing': 'rien',
  'view.wipe': 'Limite entre les deux',
  'view.play.one': 'Animer',
  'view.play.other': 'Animer {count} images',
  'view.pause': 'Pause',
  'view.save': 'Sauvegarder en PNG',
  'view.saves': "Sauvegarder l'image {name} en PNG",
  'view.titled': 'avec titre et date',
  'view.shown': 'avec ces couleurs',
  'view.help': 'Fais-la glisser pour la déplacer. Tourne la molette, ou appuie sur + et −, pour zoomer.',
  'view.pixel': 'Colonne {column}, ligne {line} : {value} sur {most}',

  'radio.sample': "L'essayer comme signal radio",
  'radio.ask':
    "C'est un enregistrement de la radio elle-même. Indiquez combien d'échantillons par seconde il contient, " +
    'puis cliquez sur « Démoduler ».',
  'radio.rate': 'Échantillons par seconde',
  'radio.form': 'Format des échantillons',
  'radio.downlink': 'Signal reçu',
  'radio.start': 'Démoduler',
  'radio.u8': 'octets non signés',
  'radio.s8': 'octets signés',
  'radio.s16': 'entiers de 16 bits',
  'radio.f32': 'nombres à virgule de 32 bits',
  'radio.goes-hrit': 'GOES HRIT, {symbols} symboles par seconde',
  'radio.gk2a-lrit': 'GK-2A LRIT, {symbols} symboles par seconde',
  'radio.goes-lrit': 'GOES-N LRIT (terminé), {symbols} symboles par seconde',
  'radio.drawing': "Préparation du signal radio de l'exemple …",
  'radio.going':
    'Le signal radio devient des [symbol:symboles souples] … ({form}, {rate} échantillons par seconde, {downlink})',
  'radio.nothing':
    "Aucun signal n'a été trouvé dans cet enregistrement. Vérifiez ci-dessous les échantillons par seconde, " +
    'leur format et le signal.',
  'radio.refused': 'À ce débit, le signal ne peut pas être démodulé : chaque symbole demande 1,3 à 20 échantillons.',
  'radio.title': 'Le signal de la radio',
  'radio.locked':
    'Un signal est reçu, {ratio} dB plus fort que le bruit (Es/N0). Sa porteuse est à {carrier} Hz du milieu de ' +
    'la bande.',
  'radio.none': "Aucun signal n'a encore été trouvé.",
  'radio.clipped': '{percent} % des valeurs sont à leur limite : le gain de la radio était trop élevé.',
  'radio.constellation':
    'Chaque point est un [symbol]. À droite il signifie 1, à gauche 0. Le bruit disperse les points ; là où les ' +
    'deux nuages se touchent, des bits deviennent faux.',
  'radio.constellation.label': 'Constellation : points des symboles les plus récents',
  'radio.spectrum':
    'Intensité du signal selon la fréquence, de {most} MHz sous le milieu à {most} MHz au-dessus. La bosse est ' +
    "le satellite ; autour, c'est du bruit.",
  'radio.spectrum.label': 'Spectre des échantillons les plus récents',

  'quality.title': 'Qualité de la réception',
  'quality.none': "Aucun bloc de données ([frame]) n'a été trouvé.",
  'quality.lost': 'Sur {frames} blocs de données ([frame:trames]), {lost} ont été perdus ({share} %).',
  'quality.again': '{count} ont été restaurés en les décodant encore une fois.',
  'quality.corrected':
    'Dans chacun des autres, {mean} octets faux ont été corrigés en moyenne ; {most} est le maximum possible en une ' +
    'fois.',
  'quality.counters':
    'Leurs numéros disent lesquels manquent. Dans un tel enregistrement, les erreurs ont été corrigées avant.',
  'quality.legend':
    'Ligne et échelle de gauche : octets corrigés dans une trame. Barres rouges et échelle de droite : la part des ' +
    "trames perdues. Clique sur un endroit pour voir ce qui s'y passe.",
  'quality.legend.counters': 'Barres rouges et échelle de droite : la part des trames perdues.',
  'quality.axis': 'trames',
  'quality.seconds': '{count} s à {rate} symboles par seconde',

  'layers.title': 'Ce qui se passe, couche par couche',
  'layers.intro': "Des nombres à l'image, avec un bloc de données ([frame]) de cet enregistrement. Choisis lequel :",
  'layers.frame': 'Numéro de la trame',
  'layers.before': 'Une en arrière',
  'layers.after': 'Une en avant',
  'layers.lost': 'Trame perdue suivante',
  'layers.next': "Trame suivante avec un bout d'image",
  'layers.none': 'pas de telle trame',
  'layers.wait': 'Un instant …',
  'symbols.title': '1. Nombres de la radio ([symbol:symboles souples])',
  'symbols.text':
    'Un point pour chacun des 16 384 nombres de cette trame. Au-dessus de la ligne il signifie 1, au-dessous 0. Deux ' +
    'nuages bien séparés sont un bon signal ; là où ils se mêlent, des bits sont faux.',
  'symbols.wrong': "{count} d'entre eux ({share} %) ont le mauvais signe.",
  'marker.title': '2. Où la trame commence ([marker])',
  'marker.text':
    "Chaque trame commence par les mêmes 32 bits, 1ACFFC1D. Ils se trouvent au nombre {place} de l'enregistrement : " +
    '{hits} des 52 nombres comparables concordent.',
  'marker.inverted': "Le signal est à l'envers (polarité −), donc chaque nombre est pris avec l'autre signe.",
  'frame.title': '3. Les octets faux sont corrigés ([reedsolomon])',
  'frame.text':
    'Deux nombres ont été envoyés pour chaque bit, et les bits les plus probables sont calculés à partir de tous ' +
    '([viterbi]). Ils forment 1 020 octets, en quatre mots. Les 128 octets de la fin servent à trouver et corriger ' +
    'les erreurs : 16 au plus dans chaque mot.',
  'frame.restored':
    "Corrigés dans les quatre mots : {words} octets. Ils sont marqués ; pointe sur l'un d'eux pour voir ce qu'il " +
    'était.',
  'frame.lost': 'Dans le mot {word}, plus de 16 octets sont faux. Il ne peut pas être corrigé, et la trame est perdue.',
  'frame.again': "Le récepteur a restauré cette trame en la décodant encore une fois, ce qui n'est pas montré ici.",
  'frame.label': 'Les 1 020 octets de la trame, les corrigés marqués',
  'frame.head': 'en-tête',
  'frame.data': 'données',
  'frame.extra': 'octets pour corriger',
  'frame.wrong': 'corrigé',
  'frame.byte': 'Octet {place} : {before} est arrivé, {after} est juste',
  'frame.plain': 'Octet {place} : {after}',
  'packets.title': '4. Morceaux de fichiers ([packet:paquets])',
  'packets.text': 'La trame est le numéro {counter} du [channel:canal {channel}].',
  'packets.fill': "C'est du remplissage : le satellite n'avait rien à envoyer à ce moment.",
  'packets.onward': 'Elle continue en entier un paquet commencé avant.',
  'packets.start': "Commence à l'octet",
  'packets.apid': 'Numéro de produit ([apid])',
  'packets.count': 'Numéro',
  'packets.part': 'Partie du fichier',
  'packets.size': 'Octets',
  'packets.idle': 'remplissage',
  'part.0': 'milieu',
  'part.1': 'première',
  'part.2': 'dernière',
  'part.3': 'tout',
  'file.title': "5. Le fichier qu'ils forment ([lrit])",
  'file.text': '{name} : {packets} [packet:paquets], de la trame {first} à la trame {last}.',
  'file.none': "Aucun fichier de la collection n'a de paquet qui commence dans cette trame.",
  'lines.title': "6. Ses lignes dans l'image",
  'lines.text': "Les lignes {first} à {last} de l'image {name} viennent de paquets qui commencent dans cette trame.",
  'lines.lost': "Les lignes {first} à {last} de l'image {name} sont perdues avec elle.",
  'lines.whole': "Les lignes {first} à {last} de l'image {name} auraient été ici. Elles sont perdues.",
  'lost.title': 'Ce qui a été perdu avec elle',
  'lost.fill': 'Rien : la trame était du remplissage.',
  'lost.channel': 'Elle appartenait au [channel:canal {channel}].',
  'lost.file':
    "Il ne manque ici de partie à aucun fichier reçu. Un fichier qui y commençait ou finissait n'est pas apparu.",
  'lost.unknown': "On ne peut pas savoir ce qu'elle portait, car trop de trames autour d'elle sont perdues.",

  'about.title': 'À propos de cette page : ce qui est prouvé et ce qui ne l’est pas',
  'about.intro':
    "Le récepteur de cette page est celui de la station au sol Gomtasil, compilé pour les navigateurs. Ce qu'il " +
    "promet a été prouvé par une machine avant d'être compilé :",
  'about.keeps': "Il ne perd rien : il garde exactement les fichiers que contient l'enregistrement, dans leur ordre.",
  'about.stops':
    "S'il est arrêté à n'importe quel moment, les fichiers montrés avant sont encore là. (Le bouton « Arrêter » le " +
    'termine au milieu de son travail, comme une coupure de courant.)',
  'about.corrects': 'Un mot de 255 octets avec au plus seize octets faux est corrigé, et tout autre est refusé.',
  'about.defined':
    "Quoi que contienne l'enregistrement, le récepteur ne fait rien que son langage laisse indéfini, et chaque " +
    'commande arrive à sa fin.',
  'about.bytes':
    'Ces promesses portent sur les octets que la page donne et reçoit. Là où une commande travaille sur des octets ' +
    "en mémoire (la détection du code en ligne, l'image d'un fichier, l'exemple), elles valent à l'octet près. Quand " +
    'elle reçoit un fichier ou vérifie une collection, des fonctions de la page lisent et écrivent morceau par ' +
    'morceau ; la preuve ne peut rien en dire, comme elle ne peut rien dire de vrais fichiers.',
  'about.trusted':
    "Non prouvé, mais supposé : que les règles de la preuve et les normes des satellites disent ce qu'elles doivent " +
    "; le compilateur, qui fait d'abord du code pour un autre processeur, puis du WebAssembly ; trois fonctions pour " +
    'les grands nombres ; les blocs de mémoire de la page ; le navigateur ; et tout le reste de cette page : quel ' +
    'code en ligne est pris, comment les segments sont assemblés, ce qui est montré comme texte, comment les zips et ' +
    'les fichiers LRIT sont ouverts, PNG, les couleurs, la courbe, et les couches, qui décodent une trame une ' +
    'seconde fois pour la montrer.',
  'about.network':
    'La page ne demande rien à aucun réseau, et une règle en elle (une politique de sécurité du contenu) le lui ' +
    "interdit. Quand tu la fermes, tout ce que tu n'as pas sauvegardé est perdu.",
  'about.build': 'Version : {version}',

  'glossary.title': 'Mots',
  'term.recording': 'enregistrement',
  'about.recording': 'Un fichier des nombres donnés par un démodulateur, un pour chaque bit.',
  'term.demodulator': 'démodulateur',
  'about.demodulator': "Un programme qui transforme le signal d'une radio en nombres, un pour chaque bit qui arrive.",
  'term.symbol': 'symbole souple',
  'about.symbol':
    "Un nombre pour un bit tel qu'il a été entendu. Son signe dit 1 ou 0, et sa taille, à quel point c'est sûr.",
  'term.linecode': 'code en ligne',
  'about.linecode':
    'Comment des bits deviennent un signal. nrz-l : le niveau est le bit. nrz-m : un changement de niveau signifie 1.',
  'term.viterbi': 'décodeur de Viterbi',
  'about.viterbi': 'Une méthode qui trouve les bits qui vont le mieux avec tous les nombres reçus.',
  'term.frame': 'trame',
  'about.frame':
    'Un bloc de 1 024 octets. Tout le signal est découpé en blocs pareils, et chacun peut être corrigé à lui seul.',
  'term.marker': 'mot de synchronisation',
  'about.marker': "Les 32 bits 1ACFFC1D par lesquels commence chaque trame, pour qu'on la trouve.",
  'term.reedsolomon': 'code de Reed-Solomon',
  'about.reedsolomon': '128 octets de plus dans chaque trame, avec lesquels on trouve et corrige les octets faux.',
  'term.channel': 'canal virtuel',
  'about.channel': "Les trames du même numéro de canal vont ensemble, comme les wagons d'un train.",
  'term.packet': 'paquet',
  'about.packet': "Une partie d'un fichier. Les paquets sont numérotés, donc un paquet manquant se remarque.",
  'term.apid': 'APID',
  'about.apid': 'Application process identifier : le numéro de la sorte de produit à laquelle appartient un paquet.',
  'term.segment': 'segment',
  'about.segment': "Une partie d'une image qui est envoyée comme un fichier à part, souvent une bande en travers.",
  'term.lrit': 'LRIT',
  'about.lrit':
    'Low and High Rate Information Transmission : le format dans lequel les satellites météo envoient des fichiers.',
  'term.shelf': 'collection',
  'about.shelf': "Un fichier (.shelf) avec tout ce qui a été reçu, dans l'ordre d'arrivée.",
};

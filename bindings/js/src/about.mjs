import { buildOfLibrary } from './library.mjs';
import { ANSWER, TEXT, TEXT_ROOM, bytes } from './memory.mjs';
import { textAt } from './texts.mjs';

buildOfLibrary(TEXT, 0, TEXT_ROOM, 0, ANSWER, 0);

/** The version of the library, and which build it is, which its text has in parentheses. */
export const [version, build] = textAt(TEXT, bytes[ANSWER]).slice(0, -1).split(' (');

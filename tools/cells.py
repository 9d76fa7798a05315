#!/usr/bin/env python3
"""Writes the numbers of the cells, for the definition and for the code, from the list below.

A line has a name, how many cells it is the first of (1 where nothing is said) and a comment. Cells 2 to 31 can be counters,
those below 16 also the counter of a row of eight.
"""
import sys

COUNTERS = """
BLOCK 1 one more than the number of the block, 0 outside of blocks: the block part of a record is one less
BLK 1 the block, from 0
CH 1 the channel, from 0
BND 1 a band or sub-band
SEG 1 a delta segment, from 0
SLOT 1 a slot: the channels 0 to 4, coupling 5, LFE 6
SUB 1 a coupling sub-band, counted from the first of all
"""

CELLS = """
SYNCWORD
STRMTYP
SUBSTREAMID
FRMSIZ
FSCOD
NUMBLKSCOD
NUMBLKS 1 the number of blocks, 1, 2, 3 or 6
ACMOD
NFCHANS 1 the number of full bandwidth channels
LFEON
BSID
COMPRE
COMPR2E
CHANMAPE
MIXMDATE
LFEMIXLEVCODE
PGMSCLE
PGMSCL2E
EXTPGMSCLE
MIXDEF
MIXDEFLEN
MIXSTART 1 where the mixing data begin
MIXEND 1 where those of their bits end that are read as elements
MIXUSED 1 how many bits these are
MIXBITS 1 how many bits the mixing data have
MIXDATA2E
SCALE_EXISTS 1 extpgmlscle and the flags like it
ADDCHE
MIXDATA3E
ADDSPCHDATE
ADDSPCHDAT1E
PANINFOE
PANINFO2E
FRMMIXCFGINFOE
BLKMIXCFGINFOE
INFOMDATE
AUDPRODIE
AUDPRODI2E
BLKID
ADDBSIE
ADDBSIL
EXPSTRE
AHTE
SNROFFSTSTR
TRANSPROCE
BLKSWE
DITHFLAGE
BAMODE
FRMFGAINCODE
DBAFLDE
SKIPFLDE
SPXATTENE
CPLSTRE 6 by block
CPLINUS 6 cplinu by block
NCPLBLKS
CPLEXPSTR 6 by block
CHEXPSTR 48 by block and channel
LFEEXPSTR 6 by block
FRMCPLEXPSTR
FRMCHEXPSTR
CONVEXPSTRE
NCPLREGS
NCHREGS 5 by channel
NLFEREGS
AHTINU 7 by slot
AHT_READ 7 whether the mantissas of a slot of the adaptive hybrid transform were read in an earlier block, by slot
FRMFSNROFFST
CHINTRANSPROC
CHINSPXATTEN
BLKSTRTINFOE
WIDTH 1 the width of a span
BLOCK_STARTS 6 by block
DYNRNGE
DYNRNG2E
SPXSTRE
SPXINU
CHINSPX 5 by channel
SPXBEGF
SPXENDF
SPX_BEGIN 1 spx_begin_subbnd
SPX_END 1 spx_end_subbnd
SPXBNDSTRCE
SPXBNDSTRC 17 by sub-band
SPX_BLOCKS 1 how many blocks use spectral extension
NSPXBNDS
FIRSTSPXCOS 5 by channel
SPXCOE
CPLINU 1 of the present block
ECPLINU
CHINCPL 5 by channel
PHSFLGINU
CPLBEGF
CPLENDF
CPL_SUBND_END 1 the first sub-band past the coupling range: cplendf + 3
NCPLSUBND
CPLBNDSTRCE
CPLBNDSTRC 18 by sub-band
NCPLBND
CPL_BLOCKS 1 how many blocks use coupling
FIRSTCPLCOS 5 by channel
FIRSTCPLLEAK
CPLCOE 5 by channel
PHSFLGE 1 whether a coupling coordinate of the two channels is sent
REMATSTR
NREMATBD
CHBWCOD 5 by channel
CHBWSENT 5 whether chbwcod was sent, by channel
CPLSTRT 1 cplstrtmant, the first bin of coupling
CPLEND 1 cplendmant, the first bin past coupling
ENDMANT 5 endmant, the first bin past each channel
ABSEXP 1 the absolute exponent of a set
HELDSTRT 1 the first bin of the coupling exponents that are held
HELDEND 7 the first bin past the exponents that are held, 0 for none, by slot
BAIE
BAI_SENT 1 whether the five parameters below were ever sent
SDCYCOD
FDCYCOD
SGAINCOD
DBPBCOD
FLOORCOD
SNROFFSTE
CSNROFFST
CPLFLEAK
CPLSLEAK
BLKFSNROFFST
FSNROFFST 7 by slot
FGAINCODE
FGAINCOD 7 by slot
CONVSNROFFSTE
CPLLEAKE
DELTBAIE
DELTBAE 6 the delta code by slot
NSEG 1 deltnseg or cpldeltnseg
DELTNSEG 6 the number of segments in use by slot, 0 for none (one more than the element says)
DELTOFFST 48 by slot and segment
DELTLEN 48 by slot and segment
DELTBA 48 by slot and segment
SKIPLE
SKIPL
MANTISSA_STARTS 6 by block
TAGS 8 what the walk of a block's mantissas tells: its GAQ tags, and the bits of each slot
SLOT_BITS 48 the bits of the slots, by block, in rows of eight
AHT_TAGS 1 the GAQ tags so far
AUDIO_END 1 the bit after the last block
FRAME_END 1 the bit after the frame
AFTER_AUDIO 1 how many bits follow the audio
AUXDATAE 1 auxdatae, looked at ahead
AFTER_AUXDATAE 1 the bit after auxdatae
AUXDATAL
"""


def numbered():
    at = 1
    for part, start in ((COUNTERS, 1), (CELLS, 32)):
        at = start
        for line in part.strip().splitlines():
            words = line.split(None, 2)
            many = int(words[1]) if len(words) > 1 else 1
            yield words[0], at, many, words[2] if len(words) > 2 else ""
            at += many
    if at > 1024:
        sys.exit("too many cells")


def comment(many, text):
    if many > 1:
        return f"[{many}] {text}".strip()
    return text


def definition():
    print("-- The cells, by the names of the elements and helper variables of A/52 and of TS 102 366. A number in brackets says of how many")
    print("-- cells a name is the first. Cells 2 to 31 can be counters. Written by tools/cells.py.")
    print("use Rattle.std.specs.Prelude.{ℕ}")
    for name, at, many, text in numbered():
        print()
        if comment(many, text):
            print(f"-- {comment(many, text)}")
        print(f"abbrev pub {name} : ℕ")
        print(f"{name} = {at}")


def code():
    print("// The cells, by the names of the elements and helper variables of A/52 and of TS 102 366. A number in brackets says of how many")
    print("// cells a name is the first. Written by tools/cells.py.")
    for name, at, many, text in numbered():
        print()
        if comment(many, text):
            print(f"// {comment(many, text)}")
        print(f"pub const {name.replace('-', '_')}: usize = {at};")


if __name__ == "__main__":
    definition() if sys.argv[1:] == ["definition"] else code()

<!SGML -- XML 1.0 over bytes, as a declaration of ISO 8879 with its annex for the Web. --
"ISO 8879:1986 (WWW)"

-- Each byte is a character by itself, so that all characters of Unicode come through unchanged. --
CHARSET
  BASESET "ISO Registration Number 177//CHARSET ISO/IEC 10646-1:1993 UCS-4 with implementation level 3//ESC 2/5 2/15 4/6"
  DESCSET 0 9 UNUSED 9 2 9 11 2 UNUSED 13 1 13 14 18 UNUSED 32 224 32
CAPACITY NONE
SCOPE DOCUMENT
SYNTAX
  SHUNCHAR NONE
  BASESET "ISO Registration Number 177//CHARSET ISO/IEC 10646-1:1993 UCS-4 with implementation level 3//ESC 2/5 2/15 4/6"
  DESCSET 0 256 0
  FUNCTION RE 13 RS 10 SPACE 32 TAB SEPCHAR 9
  -- letters, ':', '_' and each byte of a character beyond ASCII begin a name; digits, '-' and '.' go on with it --
  NAMING
    LCNMSTRT ""
    UCNMSTRT ""
    NAMESTRT 58 95 128-255
    LCNMCHAR ""
    UCNMCHAR ""
    NAMECHAR 45-46
    NAMECASE GENERAL NO ENTITY NO
  -- hexadecimal references, tags of empty elements, and the end of an instruction --
  DELIM
    GENERAL SGMLREF
    HCRO "&#38;#x"
    NESTC "/"
    NET ">"
    PIC "?>"
    SHORTREF NONE
  NAMES SGMLREF
  QUANTITY NONE
  ENTITIES "amp" 38 "lt" 60 "gt" 62 "quot" 34 "apos" 39
-- No tag may be left out, and nothing needs to be declared. --
FEATURES
  MINIMIZE
    DATATAG NO
    OMITTAG NO
    RANK NO
    SHORTTAG
      STARTTAG EMPTY NO UNCLOSED NO NETENABL IMMEDNET
      ENDTAG EMPTY NO UNCLOSED NO
      ATTRIB DEFAULT YES OMITNAME NO VALUE NO
    EMPTYNRM YES
    IMPLYDEF ATTLIST YES DOCTYPE NO ELEMENT YES ENTITY NO NOTATION YES
  LINK SIMPLE NO IMPLICIT NO EXPLICIT NO
  OTHER
    CONCUR NO
    SUBDOC NO
    FORMAL NO
    URN NO
    KEEPRSRE YES
    VALIDITY NOASSERT
    ENTITIES REF ANY INTEGRAL YES
APPINFO NONE
SEEALSO "ISO 8879//NOTATION Extensible Markup Language (XML) 1.0//EN">

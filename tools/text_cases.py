"""Scripts by hand of what JSON texts and token files may hold: which texts are read and where the others stop, what values and
spans are read, and which shapes groups and tokens have.

Most texts stand in scripts of many commits, one text after another in the place of the one before, so that each refusal is
told by itself. The cases are made as those of script_cases.
"""
import json
import re

from script_cases import BLACK, PX, Case, file, of_set, plan, tokens

MOST_PERMUTATIONS = 64
COMMITS = 100
LONG = 70_000
DEEP = 20_000

# An object with values of all forms, a group with two tokens and a group, and strings that need escapes.
MEMBERS = r' { "b" : null , "é" : [ 1.50, true, "x\n\ud83d\ude00" ], "\u00e9\u0065": {} } '
GROUP = (
    '{"$type":"color","$deprecated":"old","b":{"$value":[1,{"x":"y"}],"$description":"d","$extensions":{"e":1},"$deprecated":true,'
    '"$type":"number"},"$root":{"$ref":"#/b"},"a":{"$extends":"{b.c}","$deprecated":false}}'
)
EXTENDED = GROUP.replace("{b.c}", "{d}")[:-1] + ',"d":{"e":{"$value":%s}}}' % BLACK
LAWFUL = EXTENDED.replace('[1,{"x":"y"}]', "1.50")
WRITTEN = {
    "\u001fa": {'"é': {"$type": "number", "$value": 1, "$description": 'a"\\\u0001\u001fé', "$deprecated": '/"'}},
    "b": {"$type": "number", "$value": 2, "$description": "", "$deprecated": "\\\n\t\b\f\r\u007f\u2028😀"},
}

# Texts of all forms.
READ = [
    "null", "true", "false", " null ", '"a"', ' "a" ', "0", "-0", "-1", "1", "10", "1.0", "1.0e5", "1e+5", "1E5", "0.0", "0e0", "-0.0e-0",
    "9999999999999999999999999999999999999999", "[ ]", "[1]", "[1 ,2]", "[ 1 , 2 ]", "[[]]", "[[],[]]", "[[1],2]", "[null,true,false]", '["a"]', "{ }",
    '{"a":1}', '{ "a" : 1 }', '{"a":1,"b":2}', '{"a":{"b":{}}}', '{"a":[1,{"b":[]}]}', '{"é":1}', '{"a":{"a":1},"b":1}', '{"":1}', '{"A":1,"a":2}',
    '[{"a":1},{"a":1}]', r'"\""', r'"\\"', r'"\/"', r'"\b\f\n\r\t"', r'"\u1234"', r'"\uabcd"', r'"\uABCD"', r'"\uaBcD"', r'"\u00e9"', r'"\ud7ff"',
    r'"\ud800\udc00"', r'"\uD83D\uDE00"', r'"\ud83d\ude00"', r'"\udbff\udfff"', r'"\ue000"', r'"\uffff"', r'"\uDBFF\uDFFF"', r'"a\u00e9b"', r'"\u0000"', '"é"',
    '"日本語"', '"😀"', '" "', '"\x7f"', r'"tab\tquote\"end"', '{"b":{"$value":{"value":4,"unit":"px"}}}',
    '{"a":{"$type":"dimension","$value":{"value":4,"unit":"em"}}}',
]

# Texts that break off, or that go on as no text does: blanks and words, numbers, lists, objects, strings, and what stands behind.
STOPS = [
    " ", '\t\n\r ', "nul", "nulll", "truE", "fals", "falsey", "n", "t", "f", "x", "-", "+1", ".5", ",", ":", "]", "}", '"', '"a', '"a"b', "00", "-01", "1.",
    "1.0e", "1e", "1e+", "1e-", "1e5.", "1e5e", "0.", "--1", "1-", "1+", "0x1", "1 2", "1.5.5", "-a", "-.5", "[", "[ ", "[1", "[1 ", "[1,", "[1, ", "[1]]",
    "[1}", "[,1]", "[1 2]", "[[]", "[nul]", "[1,nul]", '["a",]', "[}", "[é]", "[1é]", "{ ", "{}{", "{]", "{1", '{"', '{"a', '{"a"', '{"a" ', '{"a":', '{"a": ',
    '{"a":1', '{"a":1 ', '{"a":1,', '{"a":1, ', '{"a":1,}', '{"a":1}}', '{"a":1]', "{,}", '{"a",1}', '{"a":1 "b":2}', '{"a":1,b:2}', "{a:1}", "{'a':1}",
    '{"a":nul}', '{"a":-}', '{"a":1,"a":', '{"a":1,"a":2', '{"a":1,"a":2]', '{"a":1,"a":x}', '"\\', r'"\"', r'"\a"', r'"\x"', r'"\u"', r'"\u', r'"\u1"',
    r'"\u12"', r'"\u123"', r'"\u000g"', r'"\ug000"', r'"\ud800"', r'"\ud800', r'"\ud800x"', '"\\ud800\\', r'"\ud800\"', r'"\ud800\n"', r'"\ud800\u"',
    r'"\ud800\u0041"', r'"\ud800\ud800"', r'"\ud800\udbff"', r'"\udfff"', r'"\ude00\ud83d"', r'"\uDC00"', '"é', '"😀', '"a\nb"', '"a\tb"', '"\x1f"', '"é\n"',
    r'{"a":"é\q"}', r'["\ud83d\ude00é", "ü"] ü', '\ufeff', '{}\ufeff', '[1]\x00', '\x00', '[\x0b]', '\x0c1', '1\xa0', '[1,\u2028 2]', '{"a":1}é',
]

# Objects of few members with equal names, also by escapes, in other objects, and before what is no text.
EQUAL_NAMES = [
    '{"é":1,"é":2}', '{"a":1,"b":2,"a":3}', '{"a":{"a":1,"a":2},"a":1}', '{"a":1,"a":{"b":1,"b":2}}', r'{"a":1,"\u0061":2}', r'{"\u0061":1,"a":2}',
    r'{"\n":1,"\u000a":2}', r'{"\u000A":1,"\u000a":2}', r'{"\/":1,"/":2}', '{"":1,"":2}', r'{"😀":1,"\ud83d\ude00":2}', r'{"é":1,"\u00e9":2}',
    r'{"é":1,"\u00E9":2}', '[{"a":1,"a":2},{"b":1,"b":1}]', '{"a":1,"a" :2}', '{"a":1, "a":2}', '{"x":[{"y":1,"y":2}],"x":1}',
]

# Objects of more than eight members, of which some have equal names.
MANY_NAMES = [
    '{"a":0,"b":1,"c":2,"d":3,"e":4,"f":5,"g":6,"h":7,"a":8}', '{"z":0,"a":1,"z":2,"c":3,"d":4,"a":5,"f":6,"g":7,"h":8,"i":9}',
    '{"i":0,"h":1,"g":2,"f":3,"e":4,"d":5,"c":6,"b":7,"a":8}', '{"a":0,"a":1,"a":2,"a":3,"a":4,"a":5,"a":6,"a":7,"a":8}',
    '{"b":0,"c":1,"a":2,"d":3,"a":4,"e":5,"a":6,"f":7,"b":8}', '{"a":0,"aa":1,"aaa":2,"aaaa":3,"":4,"b":5,"ab":6,"ba":7,"A":8}',
    r'{"a":0,"b":1,"c":2,"d":3,"e":4,"f":5,"g":6,"h":7,"\u0061":8}', r'{"\u0061":0,"b":1,"c":2,"d":3,"e":4,"f":5,"g":6,"h":7,"a":8}',
    r'{"日本":0,"b":1,"c":2,"d":3,"e":4,"f":5,"g":6,"h":7,"\u65e5\u672c":8}', '{"a":{"x":0,"x":1},"b":1,"c":2,"d":3,"e":4,"f":5,"g":6,"h":7,"a":8}',
    '{"a":0,"a":{"x":0,"x":1},"c":2,"d":3,"e":4,"f":5,"g":6,"h":7,"i":8}', '{"a":0,"b":1,"c":2,"d":3,"e":4,"f":5,"g":6,"h":7,"i":8}',
    r'{"$type":3, "\u0061" : 8, "日" : 1, "f":3, "\ud83d\ude00" : 9, "e" : 1, "\u00E9":1, "a\u0062":9, "ｅ":9, "\/":[0]}',
    (
        r'{"\u0024type":2, "~":[2], "\ud83d\ude00" : 8, "aa" : 9, "h" : 1, "\u65e5":4, "\n" : [9], "aa" : {"a":8, "" : 8, "c":6, "$value" : 6,'
        r' "日" : 8, "é":4, "g" : 4, "d":1, "\u0061":2, "~":0}, "ｅ":{"A":1}}'
    ),
    r'{"a":8,"\ud83d\ude00" : 3,"$value" : 4,"ab" : 6,"\/":3,"A" : 5,"h" : 7,"😀":1,"\u00E9":[4],"\n" : 9}',
    (
        r'{"$value":1, "A":2, "\u0061" : 5, "b":4, "h":6, "\u000a" : 8, "d":{"\u00E9" : 0,"~" : 8,"a\u0062" : 1,"":3,"f" : 7,"\u000a":7,'
        r'"\u0024type" : 1,"\/":7,"$value" : 6}, "ｅ":5, "\u00E9":4, "~" : 4, "":5, "e" : 0, "ab":0}'
    ),
    r'{"\u000a" : 4,"ab":1,"\u65e5":2,"h":1,"\/" : 4,"~":5,"\u0061":2,"é":4,"f":8,"a" : 2,"日" : 0,"b":6,"\ud83d\ude00":4}',
    r'{"😀":6, "日":3, "a\u0062" : 6, "e" : 9, "h":9, "g":4, "\ud83d\ude00":{"\n":1}, "\u00E9" : [{"aa":0}], "$value":6, "b":0, "\n":6, "\/" : 3, "~" : 5}',
    r'{"ab" : 8,"😀" : 9,"\u65e5":3,"f":6,"\u65e5":5,"a\u0062" : 0,"\u0061":9,"f":8,"\/":9}',
    r'{"\u0061":8,"\u00e9":4,"aa" : [1],"a" : 2,"a":7,"\u00E9":2,"\ud83d\ude00":9,"😀" : 5,"b" : 9}',
    (
        r'{"\u00e9":8,"d":6,"\u65e5":{"a" : 9,"g":0,"f" : 4,"😀":6,"aa":9,"\u0024type" : 6,"" : 8,"b":1,"ｅ":2},"😀":0,"aa":7,"\u000a":2,"/":7,"ab" : 9,'
        '"ｅ":7,"h" : 4,"":6,"e" : 3,"$type":6}'
    ),
    r'{"ab" : 4,"\u0061":5,"h" : 8,"\ud83d\ude00":7,"\/":7,"f":5,"\n":4,"":9,"A" : 7,"e" : 2}',
    r'{"~" : 6,"é":[2],"aa":3,"😀" : 6,"\u65e5":3,"e" : 1,"\n":1,"g":0,"$type":4}',
    (
        r'{"\u000a":1,"\u00e9" : 5,"A":9,"é":1,"a\u0062":7,"\u65e5" : 5,"\u00E9":9,"😀" : [{"\u000a":4,"a\u0062":6,"e" : 7,"f":1,"\n":9,"$value" : 7,'
        r'"b":9,"A" : 5,"aa":0,"\u0061":9}],"h":6,"日":4,"~":4,"$type":0,"":5}'
    ),
    r'{"g" : 7, "aa" : 8, "$value" : 9, "\/":0, "\ud83d\ude00":7, "c":4, "ab":1, "~" : 3, "\u0024type" : 5}',
    r'{"c":1,"d":9,"f":7,"a\u0062" : 3,"aa" : 5,"e":2,"$value":6,"\u00E9":8,"\n":5,"a" : 9,"b":1}',
    r'{"\u00E9":1,"\n":1,"a":9,"aa":5,"a\u0062":5,"ｅ":{"a":9},"\/":1,"$value":5,"\u65e5":{"\u0061":8},"g" : 1,"A":3}',
    (
        r'{"\u65e5" : {"/":4},"a\u0062" : 3,"~":9,"a" : 0,"$type":0,"d" : 4,"\u000a":6,"":4,"ｅ":4,"b":{"a\u0062":4,"a":3,"$type":3,"$value" : 2,'
        r'"\u65e5" : 8,"é" : 0,"\/" : 0,"h" : 4,"ab" : 7},"e":8}'
    ),
    r'{"😀" : 9,"\u65e5" : 7,"f":8,"a":7,"~":7,"\u00e9":8,"d":0,"ｅ":[5],"$type":5,"e" : 3,"h":1,"$value":9}',
    r'{"\u65e5":5,"\/":8,"~" : 5,"h":0,"ｅ":3,"$value" : 9,"a\u0062":3,"A":{"é":6},"e":4,"\u00E9" : 0,"\n":7,"c" : 9}',
    (
        r'{"a":4,"ｅ":4,"":0,"f" : [0],"e":4,"日" : 6,"\u000a":6,"\/" : 6,"a\u0062" : [{"ab":7, "ｅ" : 0, "f":5, "\ud83d\ude00" : 5, "\u000a" : 5,'
        r' "$type":2, "\u65e5":1, "":7, "\u00E9":7}],"d":4}'
    ),
    (
        r'{"\ud83d\ude00" : 5,"a\u0062" : 9,"":9,"~":9,"/":6,"\u0061" : 4,"é" : [{"~":1, "c":9, "ab":1, "ｅ":3, "aa":1, "\u0061":3, "😀":0, "\/":6,'
        ' "d":1}],"aa":4,"$type":[0]}'
    ),
    r'{"d" : 4,"\u0024type":1,"a\u0062" : 1,"A":7,"ab":8,"g":2,"$value" : 0,"\/":7,"é":[3],"":9,"~":8,"\u000a" : 9,"😀":9}',
    (
        r'{"\ud83d\ude00":1,"\u0061" : 1,"\u00e9":6,"ab":5,"aa":3,"f" : 1,"h":[{"aa":2,"\u0024type" : 8,"\/":3,"e" : 9,"":6,"\u00e9":3,"/":9,"A" : 9,'
        r'"\n":8,"a":9}],"\u000a" : 8,"😀":2,"A":3,"\n" : 4,"e":4}'
    ),
    r'{"h":3,"e":9,"/" : 2,"\u00E9":3,"f" : 3,"" : 3,"\u0024type":5,"ｅ":6,"\u000a":7,"~":7,"日" : 1}',
    (
        r'{"\/":9,"a":3,"ｅ":3,"$value":3,"ab" : 0,"" : {"\/":7,"c":8,"h":2,"\ud83d\ude00":6,"\u0061":2,"\u00E9":4,"d":6,"b":4,"\u0024type":4},"日" : 2,'
        r'"e":2,"\u00E9":2,"\u000a":5,"😀":{"":2,"f":7,"c" : 8,"\u000a":7,"b":4,"\u0024type" : 9,"é":8,"g":7,"😀":4,"A" : 0},"\u0024type":7,"A" : 6}'
    ),
    (
        r'{"/":2, "h" : {"$type":6,"\u0061" : 3,"d":4,"a\u0062":4,"":8,"A":9,"h":0,"$value" : 5,"b" : 3}, "":5, "ab":5, "\/" : 2, "d":3, "b" : 8,'
        ' "f":7, "c":0}'
    ),
    (
        r'{"a":{"aa" : 2,"e" : 6,"g":1,"\u000a":1,"\ud83d\ude00":8,"\u00E9":8,"$value":3,"$type":4,"\u65e5":8,"d" : 0},"é":1,"g":9,"c":6,"g":4,'
        r'"/" : 1,"a":2,"\u000a" : 6,"\u00e9":5,"h":0,"$value":9,"a" : 4,"\u0024type":1}'
    ),
    r'{"é":6,"ab" : 7,"日":7,"\u65e5" : 6,"":1,"\u00e9" : 7,"~":5,"\ud83d\ude00":9,"\u000a":1,"\n":5}',
    (
        r'{"/" : 0,"\n":8,"f" : 5,"aa" : 1,"\u000a":4,"\u00e9":9,"$type":3,"日":1,"\/":5,"\u00E9":4,"ｅ":{"\u000a":7, "a" : 3, "$value":3, "f":1,'
        r' "aa":5, "":2, "\u00E9":4, "g":3, "\u65e5":9, "h":6},"a\u0062":8}'
    ),
    r'{"a":7,"$value" : 6,"ｅ":2,"~" : 3,"\u0024type":6,"a" : 5,"~":0,"\u00E9":8,"$type":3,"a\u0062" : 0,"b":7,"\/" : 8,"A":9}',
    (
        r'{"é":8,"e":4,"aa" : 2,"f":8,"\n" : [{"$type":7,"\u0024type" : 1,"aa":9,"\u65e5" : 2,"ab":4,"\ud83d\ude00":9,"$value":7,"c":8,"g":1}],'
        r'"\ud83d\ude00" : 5,"d" : 8,"$type" : 5,"日":5,"c":4,"h":7,"b":8,"\/":4}'
    ),
    r'{"\u00e9":3,"a\u0062":3,"a":9,"g":9,"ｅ":7,"/" : 2,"\ud83d\ude00" : 4,"":{"c":6},"\ud83d\ude00":5,"é":0,"ｅ":6,"c" : 7,"\u65e5" : 7}',
    r'{"\u000a":4,"aa" : 3,"ab":6,"\ud83d\ude00":0,"a\u0062" : 7,"\u0061":6,"\ud83d\ude00":6,"ｅ":8,"\u00E9":0}',
    r'{"\/":2,"e":[1],"":{"\u00e9" : 8},"A":1,"g":9,"\u000a":3,"é":3,"\u0061" : 3,"\u0024type":[5],"\n" : 1,"h" : 7,"\u00E9":[8]}',
    r'{"d" : 6,"h":6,"😀":4,"c":8,"\ud83d\ude00" : 5,"é":0,"\u0024type" : 1,"f":9,"/":5}',
    (
        r'{"c":2,"d":8,"~" : 8,"e":{"ｅ":4},"ｅ":{"A":8, "c" : 9, "e":8, "é" : 2, "$value" : 5, "d" : 6, "\u00E9":1, "\u000a" : 0, "f" : 7, "~":4},"":3,'
        r'"é" : 2,"$type":[7],"b":5,"\/":1,"\u0061":0,"日" : 8}'
    ),
    r'{"$value":1, "b":0, "~":7, "$type":5, "\u0061" : 7, "\/":6, "h":6, "b" : 1, "$type" : 9, "e" : 3, "e":9, "\/" : 3}',
]

# What stands first, what opens each of so many levels, what stands in the innermost, what closes how many of them, and what stands last.
LEVELS = [
    ("", ("[", 63), "", ("]", 63), ""), ("", ("[", 63), "1", ("]", 63), ""), ("", ('{"a":', 63), "1", ("}", 63), ""), ("", ("[", 64), "", ("]", 64), ""),
    ("", ("[", 64), "1", ("]", 64), ""), ("", ('{"a":', 64), "1", ("}", 64), ""), ("", ("[", 63), "", ("]", 0), ""), ("", ("[", 63), "", ("]", 62), ""),
    ("", ("[", 64), "", ("]", 0), ""), ("", ("[", 64), "", ("]", 63), ""), ("", ("[", 65), "", ("]", 0), ""), ("", ("[", 65), "", ("]", 64), ""),
    ("", ("[", 66), "", ("]", 0), ""), ("", ("[", 66), "", ("]", 65), ""), ("", ("[", 65), "", ("]", 64), "x"), ("", ("[", 65), "x", ("]", 0), ""),
    ('[{"a":1,"a":2},', ("[", 64), "", ("]", 65), ""), ('{"a":1,"a":', ("[", 64), "", ("]", 64), "}"), ("", ("[", 63), '{"a":1,"a":[]}', ("]", 63), ""),
    ("", ("[", 65), "", ("]", 65), ""), ("", ("[", 65), "1", ("]", 65), ""), ("", ('{"a":', 65), "1", ("}", 65), ""), ("", ("[", 66), "", ("]", 66), ""),
    ("", ("[", 66), "1", ("]", 66), ""), ("", ('{"a":', 66), "1", ("}", 66), ""), ("", ("[", 65), "", ("]", 64), ',{"a":1,"a":2}]'),
    ('{"a":1,"b":', ("[", 64), "", ("]", 64), ',"a":2}'), ("", ("[", 64), "{}", ("]", 64), ""), ("", ("[", 63), '{"a":[],"a":1}', ("]", 63), ""),
    ("", ("[ ", 66), "", ("]", 66), ""), ("", ("[", 70), " [ [] ]", ("]", 70), ""), ("", ("[", 70), "1,[[2],3]", ("]", 70), ""),
    ("", ("[", 70), '{"a":[[[]]]}', ("]", 70), ""), ("", ("[", 70), "", ("]", 69), "}"), ("", ("[", 70), "[[,", ("]", 0), ""),
    ("", ("[", 70), '{"a":[[}', ("]", 0), ""),
]

# Texts with blanks and newlines where they may stand, names and strings with escapes and wide characters.
SPANNED = [
    r'{"$value": "b"  , "q\"q":false  ,  "x y": [ ]  }', r' {  "\\": [  null]}', '  "b"  ', "-0  ",
    r'{"\u0041[1]": {""  : "" }  ,"\nq\"q":{  "\u0041"  :false   }}  ', '"" ', r'[{},"x y\\"  ]', " [ false]  ", '  [   "x y/",false,  "b"  ]',
    '{"":true ,"ß": "[1]"}', '""  ', "  false  ", '""', '{ "": null ,"$value":"","日本😀"  :null }', "[ [  ]  ]", ' {"ß":  [false ] ,  "$type":false}  ', "[  ]",
    "false", '[null,"éß",true   ]', '{"x y":false  } ', '[false ,[false ,  ""] ]', " {} ", " null", '{  "λ$type":null,"😀":true,"" :true }  ', "  [null ]  ",
    r'  {"\n":  {"" : true},"\u00e9" : {"ß":false    }  }  ', '{  "" :{  "é"  :0,"":""    } }  ', r'{"\\":{} , "\n":  null  }', " {  }", '{"$value":"λ"  }',
    r'["q\"q"  ,  0,true  ]', r'{  "q\"q"  :[   false  ,"$value/" ],"":  {  },"ß": [ ]  }', r'{"\n{" :12.5, "":{  ""  :  [] ,"ß{": 1E+2  }}', "[  1E+2]  ",
    "null", r'{"b"  :[  null,  "b\u00e9",{ }]  }', '{"":  "ß","[1]" :"a"  ,"a"  : [  ]} ', "{}", ' { "":null  }', " -0",
    '{ "" :""  ,"/":{  "é"  :  true, "$type":  true} ,"$type":null}', r'[   "q\"q"]', r'{"":{ "x y" :  ""   },"$value":true ,"\u0041":[null,"" ] }',
    '  {  ""  : "a" } ', " 1", '"日本"', "[    false]", '[ [1E+2] ,""  ]', '[  { ""  :  true ,"😀{": ""   } ,null,"{"] ', "[ 12.5, true ,false ]",
    '[[ ], { },[  "λß",false]  ]', '"x y"', " true", '{"[1]": 12.5}', r'["\\"  ]', r'[  {  "\n" :"q\"q","[1]"  :true }, [true ]]',
    '[  { "b":null,"aé" :null,"a":  "$value"   }, "😀"]', '{"日本": true }', r'  {"":0.25,"\ud83d\ude00\n":  "日本x y", "x y"  :"" }  ',
    '{  "$value"  :  {} ,"":false }', '{ "":"","aé"  :false}', '{"/":null   }', r' [ {  "":[null]  ,"[1]":"\\"},[true,{ }  ]  ]',
    ' {"$value" :true,"[1][1]"  :9007199254740993,  "":  true } ', r'{"a😀" :true,  "\u00e9":"$type"   }', " 9007199254740993  ",
    "[ {} ,  [null ,10,  10   ], null ]", r'  [ "\\",  "","" ]', '  {"[1]":false}', r'  {  "":  "q\"q","{":  "","$type":[false , 1  ,  "$type" ] }',
    r'{"":false  , "\n":{"é"  :-1.5e-3 ,  "$value": true  }}', "[  {},  null ,  true  ] ", "1E+2", "  [  true ,null  ]", "-1.5e-3  ",
    r' {  "\ud83d\ude00"  :false,"é" :"\u00e9"  }', r'{ "":true,  "[1]"  : false  ,"{" :"\n"  }', '["{" ,"" ]', '"/" ', r'{ "$value":"q\"q/" ,"": {}   }',
    "[  {} ] ", "-1.5e-3", "[[   false   ] ,  false ] ", r' {  "x y"  :  true,"\u00e9\ud83d\ude00":false }  ', '{"[1]": false ,"a"  :"😀λ"} ',
    r'{"\u0041[1]"  :1,"\\":10 }', ' [  null,  ""  ]', "[null  ]", ' { "λ$type" :"/" }', '{"/" : "ß$type","":[   1  ,[ true  ,true  ]]}',
    '[{"日本"  :null,"$type":  { }  },[],  null   ] ', ' {"b":true }', '[  { },""  ] ', "[  {} ,false,true]  ", r'  {  "\\":false}  ',
    r'{ "日本"  :[ "b" ]  ,"\u00e9"  :10 ,  "$type":"[1]"  }', '{"{" :null } ', r' [{"\u00e9":""  }  ]  ', "  [true ,false ]", "  [ true,true]",
    '[null  ,0.25, [  false,  "λ$type"]  ]', '  {"":true    } ', ' {"" :[  ]  }', r' [{"" :  true,"/":  1, "\ud83d\ude00" :false }  ]  ',
    r'{"\\\u0041" :-1.5e-3,"":  9007199254740993  } ', '  {"x y": false, "λ":{ "": true,  "😀" :false}  }', '{"" :[[    true],"λ"  ]  }', "[  false]  ",
    "[  true  , [  true ]  ]", "[0.25,  null ]", "  [ true  ] ", "[  0 ]", r'{"\u0041"  :1 ,""  :true,  "x y" :  "{"}',
    r'  { "{\u00e9":"", "" :  "b"  ,"a":  [   "😀"  ] } ', r'  ["{",  "\u0041",{"é日本"  :"é" ,  "":false }   ]', r' { "" :"x y\u00e9","a" :  null  }',
    ' [  "😀" ]', '[  true  ,[  false  ],{  "λ": "λ" ,  "":  true}]', r'  {"{" :"\n"} ', '  {"b$type" :null ,  "": null}',
    r'  [  [],  {"\ud83d\ude00日本":null ,  "/"  :[true  ]},"" ]', '{ "aé" :  [true  ]}  ', r'[{ "日本":{"{":  "\u00e9" ,"$type":  null, ""  :-0}}    ] ',
    '{  "$type"  :0.25    }', r'  [{  "\u00e9\\":1   }, [null, "\n\ud83d\ude00" ,1E+2]   ] ', '  ""', "  [    true]", "[  [  0.25 ]  ] ",
    r'{"/" :  "$value","\u00e9" :""}', "{} ", "[ false ]", r' {"\u0041"  : false , "$type":  9007199254740993 }', '"λ"  ', '{ "":true    }',
    '  [ [ { }] , "a$type" ,  false ]', '{"":  "日本"  , "ax y":[] }', '  "日本" ', ' {"":true  } ', ' [  null, "é"]', r'{ ""  :0,  "\\":null}',
    r' ["\n{"  ,{ "/"  :false,"$type": false  } ]', ' [  {"" : "$value"}]', '  {"x y" : false  }', "[ [true,false  ,true ], false ] ",
    r'{"":  {"\ud83d\ude00":  "λ", "bx y":  true   }  }', ' {"x y":"a" }  ', r'[  "[1]q\"q"  ]', "[   null]  ", '{"😀": null,  "日本"  :null }',
    '  { "λ":{  },  "{"  :true  }', '{"a":  1E+2 ,  "é":[12.5 ,"",  false ]}  ', "[    [   null] ,[ [null ,1E+2 ], true],  null ] ",
    ' {  "λ":null,"$value":1E+2,  "$value日本": ""} ', '{"":"", "{😀":  true,  "日本日本":  10}  ', ' {  "" :[  0  ,null  ]    }  ', "[  false  ]", " 1E+2  ",
    '  [1E+2 ,  [  [false,false  ] ,  true,  0.25]  , "λé"  ]', " [null  ]", '{  "" :  -3e7  ,"/":["λ"  ]   }  ', '{"😀"  : false  } ', ' [ -0,"λ"  ,false]',
    r'  { "\\" :true  , "[1]":"\u00e9" ,  "😀" : {} }', "[ null  ,false ]", "[  {}]", ' {"":{ "":null,"日本":  true}} ', ' {  "😀": null ,"": -3e7,"日本":"ß"   }',
    '[  "a"  ,9007199254740993]', " [] ", "[]", "[true , true]", '[false,  "/"  ]', "[ []  ]  ", " 12.5", "  [true,false   ]", r'["\u0041ß",12.5] ',
    r' {"a\\"  :"λ",  "日本":false   }', "[[[null,  true  ]  ] ,true  ]  ", r' [   [   true,"q\"q"  ]  ]', '  {"x y": false, "ß": [ true  , null   ]}',
    r' ["q\"q" ,null,null  ]', r'  {"\\": false, "":  null,"\u00e9" :true} ', "[   true ,  -3e7]", '{  "":[  true  ],  "é": null ,"ß" : true  } ', "{  } ",
    " [  {} ]  ", r'  "q\"q"', " [   true,[true  ]  ]  ", r'{"\u00e9"  :"\\","😀" :false   }', '  {"/":  [  ],"$type":{  }} ', '[null,false,"λ"  ]',
    "[ true  , null]", "  null  ", "[ 0 ,  true,true  ]", ' [  [    ""]  ,"ß😀"  ,false ]', r'{  "😀":  "{","\ud83d\ude00{":  null}  ', "  [  true  ]  ",
    r'{  "\u0041": false  }', " []", r' [null ,  "\ud83d\ude00", "a$value"    ]', r'{"\ud83d\ude00日本" : "\\" }', r'{"[1]😀":null,"\ud83d\ude00": null }  ',
    r'{"\\":{ "q\"q😀":  "\u0041a"}  }', '[ false, "[1]" ]', '[ "" ,null]', r'"\u00e9ß"', r'{ "a"  : "" ,"a\u0041":  false}  ', ' [  "a",false ]',
    r' {  "\\":  "\u0041" ,  ""  : { }}', ' { "ß/"  :"[1]"} ', '{"λ":-3e7,  "":null   }', " [true  ,true  ]", "[  { },[   true   ]  ]  ",
    r'{ "":{  "a":  false ,"$value"  :""  } ,"\\":[ 1]  }', "[    true  ]  ", "[ ]", "{ }", "[    null,null]  ", '{ "😀": true,"": false  }',
    '{"é":  {"$value"  :null, "$type":null  }} ', r'{"[1]\u00e9":1E+2 } ', r'[[],"\ud83d\ude00\ud83d\ude00"] ', '[   "",0,  [ ]  ]',
    r'  [ [  "\n"  ] ,  "\\" ]  ', ' {"😀": {  "": "{" ,"[1]":  false  },  "é":true  }  ', '{"/"  :"x y", ""  :""  ,  "{"  :12.5 }', '[    "😀"] ',
    r'{"\n"  :  [ false  ,true,true] }', r'{  "" :  null  , "q\"q日本": false}', "[  {}, {}]", r'{"":  "a", "\u0041$type"  :true}',
    r' [[ null,false,  "\u00e9"  ],"\u0041",[  [ false],0  ]]', "true", r' {"q\"q":0  }', r'{"λ$value":[ true , "q\"q",null    ] , "\u0041": true    }',
    " [true]", " [[  ]   ]  ", r'  { "\n" :  false , "é":false}  ', r'{"": { "{":"日本" ,"\ud83d\ude00":  -0   }, "/"  :10  }', "{  }", "[   1  ]",
    '[false,  "日本"  ,  null  ]', '[{"" :"" ,"{":"x y"    },{  },null  ]  ', r'  "ß\ud83d\ude00"', "null ", r' {"\n": [  ] }', '[ ""  ,  "[1][1]" , "$type😀"]',
    "[ {}  ]", " false", r'  { "x y"  :"a"  ,"\\" :false  }', r'{"q\"qß"  : null,"" :true   }', '{"λ": false,"": {"": null,"x y" :  true }}',
    r'[1 , {"":  null, "日本":  "",  "😀":  "ßß"}  ,"\n"  ] ', r' {"$value" :  [  true ,-0  ,  "$valueq\"q"] ,"":  0.25}', r'{ "/":"\u0041",  "$value":false}',
    r'{"q\"q":[ null] }  ', '[ ""  ] ', '[ "{"]', r'{ "" :  true  , "λ\u0041":  true  }', r'{"\u0041" :"","ß":false  ,"é":"x y"  }  ',
    '{ "":null  , "[1]":{ "x y":[ ] }  } ', '[ 12.5,"é" ]', r'{"ß":true , "[1]":null,"\u00e9"  : "\u0041"}  ', "[ true ]", r'[ "q\"qé"  ,  true ]  ',
    " [  null  ] ", '{  "[1]":{  ""  :  [],"$type{":false}  }  ', '{  "é"  : {  "日本":  [  false,null]  }  }  ', '[  "",["$value", null  ], [ ]] ',
    "  [ null    ]", "false  ", "[ [ [  ] , null,[-0]]  ]", ' {"ß" :false  ,"é" :9007199254740993  } ', '  [10,"😀",1E+2  ]  ', "[null,  false  ]", "true  ",
    '[ "ß"]  ', ' {"":  "/ß" }', r' {"\ud83d\ude00"  :"a", "\u00e9" :"" }  ', "[ {}]", r'{ "\ud83d\ude00b"  :null ,"\ud83d\ude00"  :"$type"}',
    '  {"😀" :  null ,"x yb":  true  }', r'[   {"😀":"","" : ""},"\u0041λ"  ]  ', ' {"": null, "[1]" :9007199254740993 }',
    r'{  "":1E+2,"\\\\" :12.5, "日本":  false  }', '["ß/","$value" ,-3e7]', "-3e7", r'  [ {""  :""} ,{  "": true,  "\u0041b": "bq\"q" } ]',
    '\t[ \t[\n ""\t\n] ,\n[\t]\t,\t{ }  ]\n', '\r\n{\r\n"{"\r\n:\r\nnull\t,\r\n"a"\t:\nnull\r\n\r\n}\r\n', ' null\r\n',
    ' {\t"q\\"q" : false\r\n,\n"\\\\" : false\t\r\n} ', '\t[\n 0\n, false\r\n,\r\n"a"\t\t]\r\n',
    ' [  [ ]\n,\t[\t\t0\n,\nnull\n\r\n]\t,\t[ \r\nnull\t, false\n\n] \r\n]\t', '\n{\r\n"\\n/"\r\n:\n""\n,\n""\n:\n[\t\tnull ,\r\nnull , "\\\\日本"\n\n]\t\t}\n',
    ' [ \r\n{\n"[1]\\n"\r\n:\r\n"日本"\n\r\n} , [\t "$type"\r\n ]\t,\n"x y"\t\r\n]\t',
    '\t{\t""\t:\nnull ,\t"{"\n:\r\n{\n"日本" :\n"ß"\t, "\\\\"\n:\n10\r\n\t} \n} ', ' [ \t"" \t]\t', ' -0\r\n', '\r\n{\n""\t:\ttrue\t, "x yx y"\t: ""\n\r\n}\t',
]

# Token files that break a rule of shape, and such that break none.
SHAPES = [
    " { } ", '{"a":1}', "1", "null", '{"$ref":"#/a"}', '{"":1}', '{"a{":{}}', '{"a}":{}}', '{"a~/":{}}', '{"a":[]}', '{"a":{"$value":1,"":1}}', '{"$root":1}',
    '{"$root":{"$value":1}}', '{"$root":{"$ref":"#/a","b":1}}', '{"$type":"color"}', '{"$type":"Color"}', '{"$type":7}', '{"$description":"x"}',
    '{"$description":null}', '{"$extensions":{"a":{"":1}}}', '{"$extensions":[]}', '{"$deprecated":false}', '{"$deprecated":true}', '{"$deprecated":"x"}',
    '{"$deprecated":null}', '{"$extends":"{}"}', '{"$extends":"#/"}', '{"$extends":"{a.b}"}', '{"$extends":"#/a~0~1/b"}', '{"$extends":"#/a~2"}',
    '{"$extends":"a"}', '{"$extends":7}', '{"a":{"$value":1,"$ref":1}}', '{"a":{"$ref":7}}', '{"a":{"$ref":"x"}}', '{"a":{"$value":1,"$description":2,"c":3}}',
    '{"a":{"b":1},"$type":1}', '{"$type":1,"a":{"b":1}}', '{"a.":1,"b":2}', '{"a":{"$value":{"":{".":1}}}}',
    '{"$foo":{"a":1},"$":7,"a":{"$type":"number","$value":1,"$extends":7,"$root":8,"$x":{"":1}}}', '{"g":{"$value":1,"$extends":1},"h":{"$extends":1}}',
    r'{"\u0061.":{}}', r'{"\u0024x":1}', r'{"a":{"\u0024value":1}}', '{"a":{"b":{"c":{"d":7}}}}', '{"$value":null}',
]

# One text, then the next one.


def in_turn(name, rule, texts, path="tokens.json"):
    """A case that puts text after text at a path, each with a commit of its own."""
    return Case(name, "replay", rule, [{path: text} for text in texts])


def nested(first, opening, inside, closing, last):
    """A text of many levels."""
    return "".join([first, opening[0] * opening[1], inside, closing[0] * closing[1], last])


def unordered_names(count):
    """The beginning of an object with so many names and the empty name, with the last digits first, so that they rise nowhere."""
    return "{" + "".join(f'"{f"{i:06}"[::-1]}":0,' for i in range(count)) + '"":0'


LARGE = [
    ("json-syntax", "brackets that stay open", "[" * DEEP),
    ("json-depth", "more brackets than may be open", "[" * DEEP + "]" * DEEP),
    ("shape-member", "a thousand names", unordered_names(1_000) + "}"),
    ("json-duplicate", "a name again behind thousands", unordered_names(6_000) + r',"99950\u0030":0}'),
    ("json-syntax", "a string of a thousand characters that stays open", '"' + "a" * 1_000),
    ("json-syntax", "a long string with an escape that is none", '{"a":"' + "x" * LONG + r"\q"),
    ("json-syntax", "a control character behind a thousand others", '{"a":"' + "x" * 1_000 + "\u001f"),
    ("shape-root", "a string of a thousand characters", '"' + "a" * 1_000 + '"'),
]

TEXTS = [
    in_turn("texts of all forms, one after another", "shape-root", READ),
    in_turn("texts that stop, one after another", "json-syntax", STOPS),
    in_turn("resolvers that stop, one after another", "json-syntax", STOPS, "resolver.json"),
    in_turn("equal names, one text after another", "json-duplicate", EQUAL_NAMES),
    in_turn("equal names of resolvers, one text after another", "json-duplicate", EQUAL_NAMES, "resolver.json"),
    in_turn("equal names among many, one text after another", "json-duplicate", MANY_NAMES),
    in_turn("texts of many levels, one after another", "json-depth", [nested(*it) for it in LEVELS]),
    in_turn("resolvers of many levels, one after another", "json-depth", [nested(*it) for it in LEVELS], "resolver.json"),
    *(Case(name, "build", rule, [tokens(text)]) for rule, name, text in LARGE),
]

# Where each value stands: a chain of references that is too long by one is refused at the value where it ends.

CHAIN = "abcdef"
LISTS = 50


def linked(name, next_name):
    """A token with lists in lists, the innermost of which has a reference."""
    return f'"{name}":{{"$value":{"[" * LISTS}"{{{next_name}}}"{"]" * LISTS}}}'


def parts(value, path=()):
    """The paths of a value and of all values in it."""
    below = value.items() if isinstance(value, dict) else enumerate(value) if isinstance(value, list) else ()
    return [path, *(it for step, inner in below for it in parts(inner, (*path, step)))]


def pointer(path):
    return "/".join(["#/t/$value", *(str(step).replace("~", "~0").replace("/", "~1") for step in path)])


def of_parts(name, texts):
    """A case of a token with a list of texts, and a permutation for each value in it, where a chain ends."""
    places = [pointer((i, *path)) for i, text in enumerate(texts) for path in parts(json.loads(text))]
    ends = ",".join('"%d":[{"f":{"$ref":%s}}]' % (i, json.dumps(place, ensure_ascii=False)) for i, place in enumerate(places))
    order = of_set(file("texts.json"), file("chain.json")) + ',{"type":"modifier","name":"part","contexts":{%s}}' % ends
    files = {
        **plan(order),
        "texts.json": '{"t":{"$value":[\n%s\n]}}\n' % ",\n".join(texts),
        "chain.json": "{%s}" % ",".join(map(linked, CHAIN, CHAIN[1:])),
    }
    return Case(name, "build", "alias-depth", [files])


def in_shares(texts):
    """The texts, in shares of no more values than there may be permutations."""
    shares, left = [], 0
    for text in texts:
        count = len(parts(json.loads(text)))
        if count > left:
            shares.append([])
            left = MOST_PERMUTATIONS
        shares[-1].append(text)
        left -= count
    return shares


# Where each name stands: with the same name before it in its object it is refused there.

STRING_OR_BRACKET = re.compile(r'("(?:\\.|[^"\\])*")(\s*:)?|([{\[])|[}\]]')


def names_twice(text):
    """For each name of the text, the text with the name at the beginning of its object, too."""
    opened, found = [], []
    for it in STRING_OR_BRACKET.finditer(text):
        if it[3]:
            opened.append(it.end())
        elif it[2]:
            found.append(text[:opened[-1]] + json.dumps(json.loads(it[1])) + ":0," + text[opened[-1]:])
        elif not it[1]:
            opened.pop()
    return found


ALL_SPANNED = [*SPANNED, MEMBERS]
ALL_NAMES = [it for text in ALL_SPANNED for it in names_twice(text)]
SPANS = [
    *(of_parts(f"the places of values, share {i}", texts) for i, texts in enumerate(in_shares(ALL_SPANNED))),
    *(in_turn(f"the places of names, from name {i}", "json-duplicate", ALL_NAMES[i:i + COMMITS]) for i in range(0, len(ALL_NAMES), COMMITS)),
]

# What values are read.

NO_NUMBERS = ["true", "false", "null", r'"\u00e9"', "[1]", "{}"]
STRINGS = [it for it in READ if it.startswith('"')]
NUMBERS = [it for it in READ if it[0] in "-0123456789" and len(it) < 30] + ["-1.5"]
WIDE = [it for it in READ if it[0] in "0123456789" and len(it) >= 30]


def numbered(kind, texts, form='{"$value":%s}'):
    """A file with a token of a type for each text."""
    return tokens('{"$type":"%s",%s}' % (kind, ",".join(f'"t{i:02}":' + form % text for i, text in enumerate(texts))))


REFERRED = (
    '{"t":{"$type":"dimension","$value":%s,"$extensions":%s},"n":{"$type":"number","$value":{"$ref":"#/t/$value/é/0"}},'
    '"f":{"$type":"fontFamily","$value":{"$ref":"#/t/$value/é/2"}},"s":{"$type":"shadow","$value":{"color":%s,"offsetX":%s,'
    '"offsetY":%s,"blur":%s,"spread":%s,"inset":{"$ref":"#/t/$value/é/1"}}}}'
)
MEASURED = MEMBERS.replace("{}", '{},"value":1,"unit":"px"')
NO_PARTS = ["a", "b/c", "é/3", "é/1/0", "e\u0301", "ée/a"]
VALUES = [
    Case("strings as descriptions", "build", None, [numbered("number", STRINGS, '{"$value":1,"$description":%s}')]),
    Case("strings as families", "build", None, [numbered("fontFamily", STRINGS)]),
    Case("numbers of all forms", "build", None, [numbered("number", NUMBERS)]),
    Case("numbers that are wide", "replay", "number-wide", [numbered("number", [it]) for it in WIDE]),
    Case("values that are no numbers", "replay", "value-shape", [numbered("number", [it]) for it in NO_NUMBERS]),
    Case("members that are referred to", "build", None, [tokens(REFERRED % (MEASURED, MEMBERS, BLACK, *[PX % i for i in range(4)]))]),
    Case(
        "members that are not there",
        "replay",
        "alias-target",
        [tokens('{"a":{"$type":"number","$value":{"$ref":"#/t/$value/%s"}},"t":{"$value":%s}}' % (it, MEMBERS)) for it in NO_PARTS],
    ),
    Case("strings that are written with escapes", "build", None, [tokens(json.dumps(WRITTEN))]),
]

# Shapes, and what is read of groups and tokens.

PUT = [("m", "number", "1"), ("b", "dimension", PX % 2), ("z", "number", "3"), ("a", "dimension", PX % 4), ("m", "dimension", PX % 5)]
KEPT_AND_MORE = '{"type":"modifier","name":"n","contexts":{"kept":[],"more":[{"c":{"$type":"number","$value":6}}],"again":[{"z":{}}]}}'
CLASHING = LAWFUL.replace('"b":{', '"b-":{').replace("#/b", "#/b-")[:-1] + ',"b!":{"$type":"number","$value":7}}'
SHAPED = [
    in_turn("shapes, one file after another", "shape-property", SHAPES),
    Case("the place of a target", "build", "extends-target", [tokens(GROUP)]),
    Case("the place of a value", "build", "value-shape", [tokens(EXTENDED.replace('"$ref":"#/b"', '"$type":"number","$value":7'))]),
    Case("a value that a token refers to", "build", "value-shape", [tokens(EXTENDED)]),
    Case("the place of a reference in place of a value", "build", "alias-target", [tokens(EXTENDED.replace("#/b", "#/f"))]),
    Case("the place of a token", "build", "name-clash", [tokens(CLASHING)]),
    Case("a group with two tokens and a group", "build", None, [tokens(LAWFUL)]),
    Case(
        "members that are put in no order",
        "build",
        None,
        [plan(of_set(*('{"%s":{"$type":"%s","$value":%s}}' % it for it in PUT)) + "," + KEPT_AND_MORE)],
    ),
]

CASES = [*TEXTS, *SPANS, *VALUES, *SHAPED]

# Whether values in JSON, a line for each, have the names and the values of their texts: prints how many do, and of each
# other what only one of the two has.
#
#     jq -s -r --rawfile texts expected/NAME.txt -f json.jq NAME.json

# The bits of hexadecimal digits.
def bits:
    {"0": "0000", "1": "0001", "2": "0010", "3": "0011", "4": "0100", "5": "0101", "6": "0110", "7": "0111",
     "8": "1000", "9": "1001", "A": "1010", "B": "1011", "C": "1100", "D": "1101", "E": "1110", "F": "1111"} as $four
    | [explode[] | $four[[.] | implode]] | join("");

# Two hexadecimal digits.
def hex: [(. / 16 | floor), . % 16 | if . > 9 then . + 55 else . + 48 end] | implode;

# The octets of UTF-8, in hexadecimal.
def utf8:
    [explode[] | [.] | implode | @uri | if startswith("%") then gsub("%"; "") else explode[] | hex end] | join("");

# The names and the values in JSON. A text has no characters but those of ASCII, and octets for others.
def words:
    if type == "object" and keys == ["length", "value"] then .length as $length | .value | bits[:$length]
    elif type == "object" then to_entries[] | .key, (.value | words)
    elif type == "array" then .[] | words
    elif . == null then "NULL"
    elif type == "boolean" then if . then "TRUE" else "FALSE" end
    elif type == "string" and any(explode[]; . > 126) then utf8
    else tostring
    end;

# The names and the values in a text. A number past 2^53 is as jq has it.
def text_words:
    scan("\"(?:[^\"]|\"\")*\"|'[0-9A-F]*'[HB]|[^ {},:]+")
    | if startswith("\"") then .[1:-1] | gsub("\"\""; "\"")
      elif startswith("'") then .[1:-2]
      elif test("^-?[0-9]{16,}$") then tonumber | tostring
      else .
      end;

[., ($texts | rtrimstr("\n") | split("\n"))] as [$values, $texts]
| [range([($values | length), ($texts | length)] | max)
    | [($values[.] | [words]), ($texts[.] // "" | [text_words])] as [$one, $other]
    | select(($one | sort) != ($other | sort))
    | "value \(. + 1): \($one - $other) in JSON alone, \($other - $one) in the text alone"] as $faults
| if $faults == [] then "ok \($values | length)" else $faults[] end

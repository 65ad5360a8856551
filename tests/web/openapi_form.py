"""The form of a description in OpenAPI 3.1, as JSON Schema: of its objects those that docs/openapi.yaml uses, with no member beside.

It stands in for the schema of Debian 13's package python3-openapi-spec-validator where that is not installed, as on Debian 12.
"""
TEXT = {"type": "string", "minLength": 1}
SCHEMA = {"$ref": "https://json-schema.org/draft/2020-12/schema"}


def thing(required, /, **members):
    return {"type": "object", "required": required, "properties": members, "additionalProperties": False}


def either(name, form):
    """An object, or a reference to one."""
    return {"if": {"required": ["$ref"]}, "then": thing(["$ref"], **{"$ref": {"pattern": f"^#/components/{name}/[A-Za-z]+$"}}), "else": form}


def named(form, pattern="^[A-Za-z0-9._-]+$"):
    return {"type": "object", "minProperties": 1, "patternProperties": {pattern: form}, "additionalProperties": False}


MEDIA = thing([], schema=SCHEMA, examples=named(thing(["value"], summary=TEXT, value={})))
CONTENT = named(MEDIA, "^(application/json|application/octet-stream|text/plain; charset=utf-8)$")
RESPONSE = thing(["description"], description=TEXT, content=CONTENT)
PARAMETER = thing(["name", "in", "required", "schema"], **{"name": TEXT, "in": {"const": "path"}, "required": {"const": True}, "description": TEXT, "schema": SCHEMA})
OPERATION = thing(
    ["operationId", "summary", "responses"],
    operationId=TEXT,
    summary=TEXT,
    description=TEXT,
    parameters={"type": "array", "items": either("parameters", PARAMETER)},
    requestBody=thing(["content", "required"], required={"const": True}, description=TEXT, content=CONTENT),
    responses=named(either("responses", RESPONSE), "^[1-5][0-9][0-9]$"),
)
FORM = thing(
    ["openapi", "info", "paths"],
    openapi={"pattern": r"^3\.1\.\d+$"},
    info=thing(["title", "version"], title=TEXT, version=TEXT, summary=TEXT, description=TEXT),
    servers={"type": "array", "items": thing(["url"], url=TEXT, description=TEXT)},
    security={"type": "array", "items": named({"type": "array"}) | {"minProperties": 0}},
    paths=named(thing([], get=OPERATION, post=OPERATION), "^/"),
    components=thing(
        [],
        schemas=named(SCHEMA),
        responses=named(RESPONSE),
        parameters=named(PARAMETER),
        securitySchemes=named(thing(["type", "scheme"], type={"const": "http"}, scheme={"const": "basic"}, description=TEXT)),
    ),
)

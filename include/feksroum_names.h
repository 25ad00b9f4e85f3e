/* Feksroum: the table of names of AMQP 0-9-1, for C and C++: ids, places, reply codes, and names as strings.
 *
 * Made by bindings/generate from the library, and not to be edited. feksroum.h has the calls, and says how names are spelled. */
#ifndef FEKSROUM_NAMES_H
#define FEKSROUM_NAMES_H

#include <stdint.h>

/* Classes. */
enum {
    FEKSROUM_CLASS_CONNECTION = 10,
    FEKSROUM_CLASS_CHANNEL = 20,
    FEKSROUM_CLASS_ACCESS = 30,
    FEKSROUM_CLASS_EXCHANGE = 40,
    FEKSROUM_CLASS_QUEUE = 50,
    FEKSROUM_CLASS_BASIC = 60,
    FEKSROUM_CLASS_CONFIRM = 85,
    FEKSROUM_CLASS_TX = 90
};

/* Methods of connection. */
enum {
    FEKSROUM_CONNECTION_START = 10,
    FEKSROUM_CONNECTION_START_OK = 11,
    FEKSROUM_CONNECTION_SECURE = 20,
    FEKSROUM_CONNECTION_SECURE_OK = 21,
    FEKSROUM_CONNECTION_TUNE = 30,
    FEKSROUM_CONNECTION_TUNE_OK = 31,
    FEKSROUM_CONNECTION_OPEN = 40,
    FEKSROUM_CONNECTION_OPEN_OK = 41,
    FEKSROUM_CONNECTION_CLOSE = 50,
    FEKSROUM_CONNECTION_CLOSE_OK = 51,
    FEKSROUM_CONNECTION_BLOCKED = 60,
    FEKSROUM_CONNECTION_UNBLOCKED = 61,
    FEKSROUM_CONNECTION_UPDATE_SECRET = 70,
    FEKSROUM_CONNECTION_UPDATE_SECRET_OK = 71
};

/* Methods of channel. */
enum {
    FEKSROUM_CHANNEL_OPEN = 10,
    FEKSROUM_CHANNEL_OPEN_OK = 11,
    FEKSROUM_CHANNEL_FLOW = 20,
    FEKSROUM_CHANNEL_FLOW_OK = 21,
    FEKSROUM_CHANNEL_CLOSE = 40,
    FEKSROUM_CHANNEL_CLOSE_OK = 41
};

/* Methods of access. */
enum {
    FEKSROUM_ACCESS_REQUEST = 10,
    FEKSROUM_ACCESS_REQUEST_OK = 11
};

/* Methods of exchange. */
enum {
    FEKSROUM_EXCHANGE_DECLARE = 10,
    FEKSROUM_EXCHANGE_DECLARE_OK = 11,
    FEKSROUM_EXCHANGE_DELETE = 20,
    FEKSROUM_EXCHANGE_DELETE_OK = 21,
    FEKSROUM_EXCHANGE_BIND = 30,
    FEKSROUM_EXCHANGE_BIND_OK = 31,
    FEKSROUM_EXCHANGE_UNBIND = 40,
    FEKSROUM_EXCHANGE_UNBIND_OK = 51
};

/* Methods of queue. */
enum {
    FEKSROUM_QUEUE_DECLARE = 10,
    FEKSROUM_QUEUE_DECLARE_OK = 11,
    FEKSROUM_QUEUE_BIND = 20,
    FEKSROUM_QUEUE_BIND_OK = 21,
    FEKSROUM_QUEUE_PURGE = 30,
    FEKSROUM_QUEUE_PURGE_OK = 31,
    FEKSROUM_QUEUE_DELETE = 40,
    FEKSROUM_QUEUE_DELETE_OK = 41,
    FEKSROUM_QUEUE_UNBIND = 50,
    FEKSROUM_QUEUE_UNBIND_OK = 51
};

/* Methods of basic. */
enum {
    FEKSROUM_BASIC_QOS = 10,
    FEKSROUM_BASIC_QOS_OK = 11,
    FEKSROUM_BASIC_CONSUME = 20,
    FEKSROUM_BASIC_CONSUME_OK = 21,
    FEKSROUM_BASIC_CANCEL = 30,
    FEKSROUM_BASIC_CANCEL_OK = 31,
    FEKSROUM_BASIC_PUBLISH = 40,
    FEKSROUM_BASIC_RETURN = 50,
    FEKSROUM_BASIC_DELIVER = 60,
    FEKSROUM_BASIC_GET = 70,
    FEKSROUM_BASIC_GET_OK = 71,
    FEKSROUM_BASIC_GET_EMPTY = 72,
    FEKSROUM_BASIC_ACK = 80,
    FEKSROUM_BASIC_REJECT = 90,
    FEKSROUM_BASIC_RECOVER_ASYNC = 100,
    FEKSROUM_BASIC_RECOVER = 110,
    FEKSROUM_BASIC_RECOVER_OK = 111,
    FEKSROUM_BASIC_NACK = 120
};

/* Methods of confirm. */
enum {
    FEKSROUM_CONFIRM_SELECT = 10,
    FEKSROUM_CONFIRM_SELECT_OK = 11
};

/* Methods of tx. */
enum {
    FEKSROUM_TX_SELECT = 10,
    FEKSROUM_TX_SELECT_OK = 11,
    FEKSROUM_TX_COMMIT = 20,
    FEKSROUM_TX_COMMIT_OK = 21,
    FEKSROUM_TX_ROLLBACK = 30,
    FEKSROUM_TX_ROLLBACK_OK = 31
};

/* Places of the fields of connection.start. */
enum {
    FEKSROUM_CONNECTION_START_VERSION_MAJOR = 0,
    FEKSROUM_CONNECTION_START_VERSION_MINOR = 1,
    FEKSROUM_CONNECTION_START_SERVER_PROPERTIES = 2,
    FEKSROUM_CONNECTION_START_MECHANISMS = 3,
    FEKSROUM_CONNECTION_START_LOCALES = 4
};

/* Places of the fields of connection.start-ok. */
enum {
    FEKSROUM_CONNECTION_START_OK_CLIENT_PROPERTIES = 0,
    FEKSROUM_CONNECTION_START_OK_MECHANISM = 1,
    FEKSROUM_CONNECTION_START_OK_RESPONSE = 2,
    FEKSROUM_CONNECTION_START_OK_LOCALE = 3
};

/* Places of the fields of connection.secure. */
enum {
    FEKSROUM_CONNECTION_SECURE_CHALLENGE = 0
};

/* Places of the fields of connection.secure-ok. */
enum {
    FEKSROUM_CONNECTION_SECURE_OK_RESPONSE = 0
};

/* Places of the fields of connection.tune. */
enum {
    FEKSROUM_CONNECTION_TUNE_CHANNEL_MAX = 0,
    FEKSROUM_CONNECTION_TUNE_FRAME_MAX = 1,
    FEKSROUM_CONNECTION_TUNE_HEARTBEAT = 2
};

/* Places of the fields of connection.tune-ok. */
enum {
    FEKSROUM_CONNECTION_TUNE_OK_CHANNEL_MAX = 0,
    FEKSROUM_CONNECTION_TUNE_OK_FRAME_MAX = 1,
    FEKSROUM_CONNECTION_TUNE_OK_HEARTBEAT = 2
};

/* Places of the fields of connection.open. */
enum {
    FEKSROUM_CONNECTION_OPEN_VIRTUAL_HOST = 0
};

/* Places of the fields of connection.close. */
enum {
    FEKSROUM_CONNECTION_CLOSE_REPLY_CODE = 0,
    FEKSROUM_CONNECTION_CLOSE_REPLY_TEXT = 1,
    FEKSROUM_CONNECTION_CLOSE_CLASS_ID = 2,
    FEKSROUM_CONNECTION_CLOSE_METHOD_ID = 3
};

/* Places of the fields of connection.blocked. */
enum {
    FEKSROUM_CONNECTION_BLOCKED_REASON = 0
};

/* Places of the fields of connection.update-secret. */
enum {
    FEKSROUM_CONNECTION_UPDATE_SECRET_NEW_SECRET = 0,
    FEKSROUM_CONNECTION_UPDATE_SECRET_REASON = 1
};

/* Places of the fields of channel.flow. */
enum {
    FEKSROUM_CHANNEL_FLOW_ACTIVE = 0
};

/* Places of the fields of channel.flow-ok. */
enum {
    FEKSROUM_CHANNEL_FLOW_OK_ACTIVE = 0
};

/* Places of the fields of channel.close. */
enum {
    FEKSROUM_CHANNEL_CLOSE_REPLY_CODE = 0,
    FEKSROUM_CHANNEL_CLOSE_REPLY_TEXT = 1,
    FEKSROUM_CHANNEL_CLOSE_CLASS_ID = 2,
    FEKSROUM_CHANNEL_CLOSE_METHOD_ID = 3
};

/* Places of the fields of access.request. */
enum {
    FEKSROUM_ACCESS_REQUEST_REALM = 0,
    FEKSROUM_ACCESS_REQUEST_EXCLUSIVE = 1,
    FEKSROUM_ACCESS_REQUEST_PASSIVE = 2,
    FEKSROUM_ACCESS_REQUEST_ACTIVE = 3,
    FEKSROUM_ACCESS_REQUEST_WRITE = 4,
    FEKSROUM_ACCESS_REQUEST_READ = 5
};

/* Places of the fields of exchange.declare. */
enum {
    FEKSROUM_EXCHANGE_DECLARE_EXCHANGE = 0,
    FEKSROUM_EXCHANGE_DECLARE_TYPE = 1,
    FEKSROUM_EXCHANGE_DECLARE_PASSIVE = 2,
    FEKSROUM_EXCHANGE_DECLARE_DURABLE = 3,
    FEKSROUM_EXCHANGE_DECLARE_AUTO_DELETE = 4,
    FEKSROUM_EXCHANGE_DECLARE_INTERNAL = 5,
    FEKSROUM_EXCHANGE_DECLARE_NO_WAIT = 6,
    FEKSROUM_EXCHANGE_DECLARE_ARGUMENTS = 7
};

/* Places of the fields of exchange.delete. */
enum {
    FEKSROUM_EXCHANGE_DELETE_EXCHANGE = 0,
    FEKSROUM_EXCHANGE_DELETE_IF_UNUSED = 1,
    FEKSROUM_EXCHANGE_DELETE_NO_WAIT = 2
};

/* Places of the fields of exchange.bind. */
enum {
    FEKSROUM_EXCHANGE_BIND_DESTINATION = 0,
    FEKSROUM_EXCHANGE_BIND_SOURCE = 1,
    FEKSROUM_EXCHANGE_BIND_ROUTING_KEY = 2,
    FEKSROUM_EXCHANGE_BIND_NO_WAIT = 3,
    FEKSROUM_EXCHANGE_BIND_ARGUMENTS = 4
};

/* Places of the fields of exchange.unbind. */
enum {
    FEKSROUM_EXCHANGE_UNBIND_DESTINATION = 0,
    FEKSROUM_EXCHANGE_UNBIND_SOURCE = 1,
    FEKSROUM_EXCHANGE_UNBIND_ROUTING_KEY = 2,
    FEKSROUM_EXCHANGE_UNBIND_NO_WAIT = 3,
    FEKSROUM_EXCHANGE_UNBIND_ARGUMENTS = 4
};

/* Places of the fields of queue.declare. */
enum {
    FEKSROUM_QUEUE_DECLARE_QUEUE = 0,
    FEKSROUM_QUEUE_DECLARE_PASSIVE = 1,
    FEKSROUM_QUEUE_DECLARE_DURABLE = 2,
    FEKSROUM_QUEUE_DECLARE_EXCLUSIVE = 3,
    FEKSROUM_QUEUE_DECLARE_AUTO_DELETE = 4,
    FEKSROUM_QUEUE_DECLARE_NO_WAIT = 5,
    FEKSROUM_QUEUE_DECLARE_ARGUMENTS = 6
};

/* Places of the fields of queue.declare-ok. */
enum {
    FEKSROUM_QUEUE_DECLARE_OK_QUEUE = 0,
    FEKSROUM_QUEUE_DECLARE_OK_MESSAGE_COUNT = 1,
    FEKSROUM_QUEUE_DECLARE_OK_CONSUMER_COUNT = 2
};

/* Places of the fields of queue.bind. */
enum {
    FEKSROUM_QUEUE_BIND_QUEUE = 0,
    FEKSROUM_QUEUE_BIND_EXCHANGE = 1,
    FEKSROUM_QUEUE_BIND_ROUTING_KEY = 2,
    FEKSROUM_QUEUE_BIND_NO_WAIT = 3,
    FEKSROUM_QUEUE_BIND_ARGUMENTS = 4
};

/* Places of the fields of queue.purge. */
enum {
    FEKSROUM_QUEUE_PURGE_QUEUE = 0,
    FEKSROUM_QUEUE_PURGE_NO_WAIT = 1
};

/* Places of the fields of queue.purge-ok. */
enum {
    FEKSROUM_QUEUE_PURGE_OK_MESSAGE_COUNT = 0
};

/* Places of the fields of queue.delete. */
enum {
    FEKSROUM_QUEUE_DELETE_QUEUE = 0,
    FEKSROUM_QUEUE_DELETE_IF_UNUSED = 1,
    FEKSROUM_QUEUE_DELETE_IF_EMPTY = 2,
    FEKSROUM_QUEUE_DELETE_NO_WAIT = 3
};

/* Places of the fields of queue.delete-ok. */
enum {
    FEKSROUM_QUEUE_DELETE_OK_MESSAGE_COUNT = 0
};

/* Places of the fields of queue.unbind. */
enum {
    FEKSROUM_QUEUE_UNBIND_QUEUE = 0,
    FEKSROUM_QUEUE_UNBIND_EXCHANGE = 1,
    FEKSROUM_QUEUE_UNBIND_ROUTING_KEY = 2,
    FEKSROUM_QUEUE_UNBIND_ARGUMENTS = 3
};

/* Places of the fields of basic.qos. */
enum {
    FEKSROUM_BASIC_QOS_PREFETCH_COUNT = 0,
    FEKSROUM_BASIC_QOS_GLOBAL = 1
};

/* Places of the fields of basic.consume. */
enum {
    FEKSROUM_BASIC_CONSUME_QUEUE = 0,
    FEKSROUM_BASIC_CONSUME_CONSUMER_TAG = 1,
    FEKSROUM_BASIC_CONSUME_NO_LOCAL = 2,
    FEKSROUM_BASIC_CONSUME_NO_ACK = 3,
    FEKSROUM_BASIC_CONSUME_EXCLUSIVE = 4,
    FEKSROUM_BASIC_CONSUME_NO_WAIT = 5,
    FEKSROUM_BASIC_CONSUME_ARGUMENTS = 6
};

/* Places of the fields of basic.consume-ok. */
enum {
    FEKSROUM_BASIC_CONSUME_OK_CONSUMER_TAG = 0
};

/* Places of the fields of basic.cancel. */
enum {
    FEKSROUM_BASIC_CANCEL_CONSUMER_TAG = 0,
    FEKSROUM_BASIC_CANCEL_NO_WAIT = 1
};

/* Places of the fields of basic.cancel-ok. */
enum {
    FEKSROUM_BASIC_CANCEL_OK_CONSUMER_TAG = 0
};

/* Places of the fields of basic.publish. */
enum {
    FEKSROUM_BASIC_PUBLISH_EXCHANGE = 0,
    FEKSROUM_BASIC_PUBLISH_ROUTING_KEY = 1,
    FEKSROUM_BASIC_PUBLISH_MANDATORY = 2,
    FEKSROUM_BASIC_PUBLISH_IMMEDIATE = 3
};

/* Places of the fields of basic.return. */
enum {
    FEKSROUM_BASIC_RETURN_REPLY_CODE = 0,
    FEKSROUM_BASIC_RETURN_REPLY_TEXT = 1,
    FEKSROUM_BASIC_RETURN_EXCHANGE = 2,
    FEKSROUM_BASIC_RETURN_ROUTING_KEY = 3
};

/* Places of the fields of basic.deliver. */
enum {
    FEKSROUM_BASIC_DELIVER_CONSUMER_TAG = 0,
    FEKSROUM_BASIC_DELIVER_DELIVERY_TAG = 1,
    FEKSROUM_BASIC_DELIVER_REDELIVERED = 2,
    FEKSROUM_BASIC_DELIVER_EXCHANGE = 3,
    FEKSROUM_BASIC_DELIVER_ROUTING_KEY = 4
};

/* Places of the fields of basic.get. */
enum {
    FEKSROUM_BASIC_GET_QUEUE = 0,
    FEKSROUM_BASIC_GET_NO_ACK = 1
};

/* Places of the fields of basic.get-ok. */
enum {
    FEKSROUM_BASIC_GET_OK_DELIVERY_TAG = 0,
    FEKSROUM_BASIC_GET_OK_REDELIVERED = 1,
    FEKSROUM_BASIC_GET_OK_EXCHANGE = 2,
    FEKSROUM_BASIC_GET_OK_ROUTING_KEY = 3,
    FEKSROUM_BASIC_GET_OK_MESSAGE_COUNT = 4
};

/* Places of the fields of basic.ack. */
enum {
    FEKSROUM_BASIC_ACK_DELIVERY_TAG = 0,
    FEKSROUM_BASIC_ACK_MULTIPLE = 1
};

/* Places of the fields of basic.reject. */
enum {
    FEKSROUM_BASIC_REJECT_DELIVERY_TAG = 0,
    FEKSROUM_BASIC_REJECT_REQUEUE = 1
};

/* Places of the fields of basic.recover-async. */
enum {
    FEKSROUM_BASIC_RECOVER_ASYNC_REQUEUE = 0
};

/* Places of the fields of basic.recover. */
enum {
    FEKSROUM_BASIC_RECOVER_REQUEUE = 0
};

/* Places of the fields of basic.nack. */
enum {
    FEKSROUM_BASIC_NACK_DELIVERY_TAG = 0,
    FEKSROUM_BASIC_NACK_MULTIPLE = 1,
    FEKSROUM_BASIC_NACK_REQUEUE = 2
};

/* Places of the fields of confirm.select. */
enum {
    FEKSROUM_CONFIRM_SELECT_NOWAIT = 0
};

/* Places of properties. */
enum {
    FEKSROUM_PROPERTY_CONTENT_TYPE = 0,
    FEKSROUM_PROPERTY_CONTENT_ENCODING = 1,
    FEKSROUM_PROPERTY_HEADERS = 2,
    FEKSROUM_PROPERTY_DELIVERY_MODE = 3,
    FEKSROUM_PROPERTY_PRIORITY = 4,
    FEKSROUM_PROPERTY_CORRELATION_ID = 5,
    FEKSROUM_PROPERTY_REPLY_TO = 6,
    FEKSROUM_PROPERTY_EXPIRATION = 7,
    FEKSROUM_PROPERTY_MESSAGE_ID = 8,
    FEKSROUM_PROPERTY_TIMESTAMP = 9,
    FEKSROUM_PROPERTY_TYPE = 10,
    FEKSROUM_PROPERTY_USER_ID = 11,
    FEKSROUM_PROPERTY_APP_ID = 12,
    FEKSROUM_PROPERTY_CLUSTER_ID = 13
};

/* Reply codes. 200 is that of a close without an error. Of the 18 errors some close a channel, and others, the hard ones,
 * a connection. */
enum {
    FEKSROUM_REPLY_SUCCESS = 200,
    FEKSROUM_REPLY_CONTENT_TOO_LARGE = 311,
    FEKSROUM_REPLY_NO_ROUTE = 312,
    FEKSROUM_REPLY_NO_CONSUMERS = 313,
    FEKSROUM_REPLY_CONNECTION_FORCED = 320,
    FEKSROUM_REPLY_INVALID_PATH = 402,
    FEKSROUM_REPLY_ACCESS_REFUSED = 403,
    FEKSROUM_REPLY_NOT_FOUND = 404,
    FEKSROUM_REPLY_RESOURCE_LOCKED = 405,
    FEKSROUM_REPLY_PRECONDITION_FAILED = 406,
    FEKSROUM_REPLY_FRAME_ERROR = 501,
    FEKSROUM_REPLY_SYNTAX_ERROR = 502,
    FEKSROUM_REPLY_COMMAND_INVALID = 503,
    FEKSROUM_REPLY_CHANNEL_ERROR = 504,
    FEKSROUM_REPLY_UNEXPECTED_FRAME = 505,
    FEKSROUM_REPLY_RESOURCE_ERROR = 506,
    FEKSROUM_REPLY_NOT_ALLOWED = 530,
    FEKSROUM_REPLY_NOT_IMPLEMENTED = 540,
    FEKSROUM_REPLY_INTERNAL_ERROR = 541
};

#ifdef __cplusplus
extern "C" {
#endif

/* The name of a class; "" where there is none, as in the functions that follow. */
static inline const char *feksroum_name_of_class(uint16_t class_id) {
    switch (class_id) {
    case FEKSROUM_CLASS_CONNECTION:
        return "connection";
    case FEKSROUM_CLASS_CHANNEL:
        return "channel";
    case FEKSROUM_CLASS_ACCESS:
        return "access";
    case FEKSROUM_CLASS_EXCHANGE:
        return "exchange";
    case FEKSROUM_CLASS_QUEUE:
        return "queue";
    case FEKSROUM_CLASS_BASIC:
        return "basic";
    case FEKSROUM_CLASS_CONFIRM:
        return "confirm";
    case FEKSROUM_CLASS_TX:
        return "tx";
    default:
        return "";
    }
}

/* The name of a method. */
static inline const char *feksroum_name_of_method(uint16_t class_id, uint16_t method_id) {
    switch ((uint32_t)class_id << 16 | method_id) {
    case 10u << 16 | 10u:
        return "start";
    case 10u << 16 | 11u:
        return "start-ok";
    case 10u << 16 | 20u:
        return "secure";
    case 10u << 16 | 21u:
        return "secure-ok";
    case 10u << 16 | 30u:
        return "tune";
    case 10u << 16 | 31u:
        return "tune-ok";
    case 10u << 16 | 40u:
        return "open";
    case 10u << 16 | 41u:
        return "open-ok";
    case 10u << 16 | 50u:
        return "close";
    case 10u << 16 | 51u:
        return "close-ok";
    case 10u << 16 | 60u:
        return "blocked";
    case 10u << 16 | 61u:
        return "unblocked";
    case 10u << 16 | 70u:
        return "update-secret";
    case 10u << 16 | 71u:
        return "update-secret-ok";
    case 20u << 16 | 10u:
        return "open";
    case 20u << 16 | 11u:
        return "open-ok";
    case 20u << 16 | 20u:
        return "flow";
    case 20u << 16 | 21u:
        return "flow-ok";
    case 20u << 16 | 40u:
        return "close";
    case 20u << 16 | 41u:
        return "close-ok";
    case 30u << 16 | 10u:
        return "request";
    case 30u << 16 | 11u:
        return "request-ok";
    case 40u << 16 | 10u:
        return "declare";
    case 40u << 16 | 11u:
        return "declare-ok";
    case 40u << 16 | 20u:
        return "delete";
    case 40u << 16 | 21u:
        return "delete-ok";
    case 40u << 16 | 30u:
        return "bind";
    case 40u << 16 | 31u:
        return "bind-ok";
    case 40u << 16 | 40u:
        return "unbind";
    case 40u << 16 | 51u:
        return "unbind-ok";
    case 50u << 16 | 10u:
        return "declare";
    case 50u << 16 | 11u:
        return "declare-ok";
    case 50u << 16 | 20u:
        return "bind";
    case 50u << 16 | 21u:
        return "bind-ok";
    case 50u << 16 | 30u:
        return "purge";
    case 50u << 16 | 31u:
        return "purge-ok";
    case 50u << 16 | 40u:
        return "delete";
    case 50u << 16 | 41u:
        return "delete-ok";
    case 50u << 16 | 50u:
        return "unbind";
    case 50u << 16 | 51u:
        return "unbind-ok";
    case 60u << 16 | 10u:
        return "qos";
    case 60u << 16 | 11u:
        return "qos-ok";
    case 60u << 16 | 20u:
        return "consume";
    case 60u << 16 | 21u:
        return "consume-ok";
    case 60u << 16 | 30u:
        return "cancel";
    case 60u << 16 | 31u:
        return "cancel-ok";
    case 60u << 16 | 40u:
        return "publish";
    case 60u << 16 | 50u:
        return "return";
    case 60u << 16 | 60u:
        return "deliver";
    case 60u << 16 | 70u:
        return "get";
    case 60u << 16 | 71u:
        return "get-ok";
    case 60u << 16 | 72u:
        return "get-empty";
    case 60u << 16 | 80u:
        return "ack";
    case 60u << 16 | 90u:
        return "reject";
    case 60u << 16 | 100u:
        return "recover-async";
    case 60u << 16 | 110u:
        return "recover";
    case 60u << 16 | 111u:
        return "recover-ok";
    case 60u << 16 | 120u:
        return "nack";
    case 85u << 16 | 10u:
        return "select";
    case 85u << 16 | 11u:
        return "select-ok";
    case 90u << 16 | 10u:
        return "select";
    case 90u << 16 | 11u:
        return "select-ok";
    case 90u << 16 | 20u:
        return "commit";
    case 90u << 16 | 21u:
        return "commit-ok";
    case 90u << 16 | 30u:
        return "rollback";
    case 90u << 16 | 31u:
        return "rollback-ok";
    default:
        return "";
    }
}

/* The name of the field at a place of a method. */
static inline const char *feksroum_name_of_field(uint16_t class_id, uint16_t method_id, uint8_t place) {
    switch ((uint32_t)class_id << 16 | method_id) {
    case 10u << 16 | 10u: { /* connection.start */
        static const char *const names[] = {"version-major", "version-minor", "server-properties", "mechanisms", "locales"};
        return place < 5 ? names[place] : "";
    }
    case 10u << 16 | 11u: { /* connection.start-ok */
        static const char *const names[] = {"client-properties", "mechanism", "response", "locale"};
        return place < 4 ? names[place] : "";
    }
    case 10u << 16 | 20u: { /* connection.secure */
        static const char *const names[] = {"challenge"};
        return place < 1 ? names[place] : "";
    }
    case 10u << 16 | 21u: { /* connection.secure-ok */
        static const char *const names[] = {"response"};
        return place < 1 ? names[place] : "";
    }
    case 10u << 16 | 30u: { /* connection.tune */
        static const char *const names[] = {"channel-max", "frame-max", "heartbeat"};
        return place < 3 ? names[place] : "";
    }
    case 10u << 16 | 31u: { /* connection.tune-ok */
        static const char *const names[] = {"channel-max", "frame-max", "heartbeat"};
        return place < 3 ? names[place] : "";
    }
    case 10u << 16 | 40u: { /* connection.open */
        static const char *const names[] = {"virtual-host"};
        return place < 1 ? names[place] : "";
    }
    case 10u << 16 | 50u: { /* connection.close */
        static const char *const names[] = {"reply-code", "reply-text", "class-id", "method-id"};
        return place < 4 ? names[place] : "";
    }
    case 10u << 16 | 60u: { /* connection.blocked */
        static const char *const names[] = {"reason"};
        return place < 1 ? names[place] : "";
    }
    case 10u << 16 | 70u: { /* connection.update-secret */
        static const char *const names[] = {"new-secret", "reason"};
        return place < 2 ? names[place] : "";
    }
    case 20u << 16 | 20u: { /* channel.flow */
        static const char *const names[] = {"active"};
        return place < 1 ? names[place] : "";
    }
    case 20u << 16 | 21u: { /* channel.flow-ok */
        static const char *const names[] = {"active"};
        return place < 1 ? names[place] : "";
    }
    case 20u << 16 | 40u: { /* channel.close */
        static const char *const names[] = {"reply-code", "reply-text", "class-id", "method-id"};
        return place < 4 ? names[place] : "";
    }
    case 30u << 16 | 10u: { /* access.request */
        static const char *const names[] = {"realm", "exclusive", "passive", "active", "write", "read"};
        return place < 6 ? names[place] : "";
    }
    case 40u << 16 | 10u: { /* exchange.declare */
        static const char *const names[] = {"exchange", "type", "passive", "durable", "auto-delete", "internal", "no-wait", "arguments"};
        return place < 8 ? names[place] : "";
    }
    case 40u << 16 | 20u: { /* exchange.delete */
        static const char *const names[] = {"exchange", "if-unused", "no-wait"};
        return place < 3 ? names[place] : "";
    }
    case 40u << 16 | 30u: { /* exchange.bind */
        static const char *const names[] = {"destination", "source", "routing-key", "no-wait", "arguments"};
        return place < 5 ? names[place] : "";
    }
    case 40u << 16 | 40u: { /* exchange.unbind */
        static const char *const names[] = {"destination", "source", "routing-key", "no-wait", "arguments"};
        return place < 5 ? names[place] : "";
    }
    case 50u << 16 | 10u: { /* queue.declare */
        static const char *const names[] = {"queue", "passive", "durable", "exclusive", "auto-delete", "no-wait", "arguments"};
        return place < 7 ? names[place] : "";
    }
    case 50u << 16 | 11u: { /* queue.declare-ok */
        static const char *const names[] = {"queue", "message-count", "consumer-count"};
        return place < 3 ? names[place] : "";
    }
    case 50u << 16 | 20u: { /* queue.bind */
        static const char *const names[] = {"queue", "exchange", "routing-key", "no-wait", "arguments"};
        return place < 5 ? names[place] : "";
    }
    case 50u << 16 | 30u: { /* queue.purge */
        static const char *const names[] = {"queue", "no-wait"};
        return place < 2 ? names[place] : "";
    }
    case 50u << 16 | 31u: { /* queue.purge-ok */
        static const char *const names[] = {"message-count"};
        return place < 1 ? names[place] : "";
    }
    case 50u << 16 | 40u: { /* queue.delete */
        static const char *const names[] = {"queue", "if-unused", "if-empty", "no-wait"};
        return place < 4 ? names[place] : "";
    }
    case 50u << 16 | 41u: { /* queue.delete-ok */
        static const char *const names[] = {"message-count"};
        return place < 1 ? names[place] : "";
    }
    case 50u << 16 | 50u: { /* queue.unbind */
        static const char *const names[] = {"queue", "exchange", "routing-key", "arguments"};
        return place < 4 ? names[place] : "";
    }
    case 60u << 16 | 10u: { /* basic.qos */
        static const char *const names[] = {"prefetch-count", "global"};
        return place < 2 ? names[place] : "";
    }
    case 60u << 16 | 20u: { /* basic.consume */
        static const char *const names[] = {"queue", "consumer-tag", "no-local", "no-ack", "exclusive", "no-wait", "arguments"};
        return place < 7 ? names[place] : "";
    }
    case 60u << 16 | 21u: { /* basic.consume-ok */
        static const char *const names[] = {"consumer-tag"};
        return place < 1 ? names[place] : "";
    }
    case 60u << 16 | 30u: { /* basic.cancel */
        static const char *const names[] = {"consumer-tag", "no-wait"};
        return place < 2 ? names[place] : "";
    }
    case 60u << 16 | 31u: { /* basic.cancel-ok */
        static const char *const names[] = {"consumer-tag"};
        return place < 1 ? names[place] : "";
    }
    case 60u << 16 | 40u: { /* basic.publish */
        static const char *const names[] = {"exchange", "routing-key", "mandatory", "immediate"};
        return place < 4 ? names[place] : "";
    }
    case 60u << 16 | 50u: { /* basic.return */
        static const char *const names[] = {"reply-code", "reply-text", "exchange", "routing-key"};
        return place < 4 ? names[place] : "";
    }
    case 60u << 16 | 60u: { /* basic.deliver */
        static const char *const names[] = {"consumer-tag", "delivery-tag", "redelivered", "exchange", "routing-key"};
        return place < 5 ? names[place] : "";
    }
    case 60u << 16 | 70u: { /* basic.get */
        static const char *const names[] = {"queue", "no-ack"};
        return place < 2 ? names[place] : "";
    }
    case 60u << 16 | 71u: { /* basic.get-ok */
        static const char *const names[] = {"delivery-tag", "redelivered", "exchange", "routing-key", "message-count"};
        return place < 5 ? names[place] : "";
    }
    case 60u << 16 | 80u: { /* basic.ack */
        static const char *const names[] = {"delivery-tag", "multiple"};
        return place < 2 ? names[place] : "";
    }
    case 60u << 16 | 90u: { /* basic.reject */
        static const char *const names[] = {"delivery-tag", "requeue"};
        return place < 2 ? names[place] : "";
    }
    case 60u << 16 | 100u: { /* basic.recover-async */
        static const char *const names[] = {"requeue"};
        return place < 1 ? names[place] : "";
    }
    case 60u << 16 | 110u: { /* basic.recover */
        static const char *const names[] = {"requeue"};
        return place < 1 ? names[place] : "";
    }
    case 60u << 16 | 120u: { /* basic.nack */
        static const char *const names[] = {"delivery-tag", "multiple", "requeue"};
        return place < 3 ? names[place] : "";
    }
    case 85u << 16 | 10u: { /* confirm.select */
        static const char *const names[] = {"nowait"};
        return place < 1 ? names[place] : "";
    }
    default:
        return "";
    }
}

/* The name of the property at a place. */
static inline const char *feksroum_name_of_property(uint8_t place) {
    switch (place) {
    case FEKSROUM_PROPERTY_CONTENT_TYPE:
        return "content-type";
    case FEKSROUM_PROPERTY_CONTENT_ENCODING:
        return "content-encoding";
    case FEKSROUM_PROPERTY_HEADERS:
        return "headers";
    case FEKSROUM_PROPERTY_DELIVERY_MODE:
        return "delivery-mode";
    case FEKSROUM_PROPERTY_PRIORITY:
        return "priority";
    case FEKSROUM_PROPERTY_CORRELATION_ID:
        return "correlation-id";
    case FEKSROUM_PROPERTY_REPLY_TO:
        return "reply-to";
    case FEKSROUM_PROPERTY_EXPIRATION:
        return "expiration";
    case FEKSROUM_PROPERTY_MESSAGE_ID:
        return "message-id";
    case FEKSROUM_PROPERTY_TIMESTAMP:
        return "timestamp";
    case FEKSROUM_PROPERTY_TYPE:
        return "type";
    case FEKSROUM_PROPERTY_USER_ID:
        return "user-id";
    case FEKSROUM_PROPERTY_APP_ID:
        return "app-id";
    case FEKSROUM_PROPERTY_CLUSTER_ID:
        return "cluster-id";
    default:
        return "";
    }
}

/* The name of a reply code, as `not-found`. */
static inline const char *feksroum_name_of_reply(uint16_t reply_code) {
    switch (reply_code) {
    case FEKSROUM_REPLY_SUCCESS:
        return "reply-success";
    case FEKSROUM_REPLY_CONTENT_TOO_LARGE:
        return "content-too-large";
    case FEKSROUM_REPLY_NO_ROUTE:
        return "no-route";
    case FEKSROUM_REPLY_NO_CONSUMERS:
        return "no-consumers";
    case FEKSROUM_REPLY_CONNECTION_FORCED:
        return "connection-forced";
    case FEKSROUM_REPLY_INVALID_PATH:
        return "invalid-path";
    case FEKSROUM_REPLY_ACCESS_REFUSED:
        return "access-refused";
    case FEKSROUM_REPLY_NOT_FOUND:
        return "not-found";
    case FEKSROUM_REPLY_RESOURCE_LOCKED:
        return "resource-locked";
    case FEKSROUM_REPLY_PRECONDITION_FAILED:
        return "precondition-failed";
    case FEKSROUM_REPLY_FRAME_ERROR:
        return "frame-error";
    case FEKSROUM_REPLY_SYNTAX_ERROR:
        return "syntax-error";
    case FEKSROUM_REPLY_COMMAND_INVALID:
        return "command-invalid";
    case FEKSROUM_REPLY_CHANNEL_ERROR:
        return "channel-error";
    case FEKSROUM_REPLY_UNEXPECTED_FRAME:
        return "unexpected-frame";
    case FEKSROUM_REPLY_RESOURCE_ERROR:
        return "resource-error";
    case FEKSROUM_REPLY_NOT_ALLOWED:
        return "not-allowed";
    case FEKSROUM_REPLY_NOT_IMPLEMENTED:
        return "not-implemented";
    case FEKSROUM_REPLY_INTERNAL_ERROR:
        return "internal-error";
    default:
        return "";
    }
}

/* 1 where a reply code is that of an error that closes a connection; else 0. */
static inline int feksroum_reply_is_hard(uint16_t reply_code) {
    switch (reply_code) {
    case FEKSROUM_REPLY_CONNECTION_FORCED:
    case FEKSROUM_REPLY_INVALID_PATH:
    case FEKSROUM_REPLY_FRAME_ERROR:
    case FEKSROUM_REPLY_SYNTAX_ERROR:
    case FEKSROUM_REPLY_COMMAND_INVALID:
    case FEKSROUM_REPLY_CHANNEL_ERROR:
    case FEKSROUM_REPLY_UNEXPECTED_FRAME:
    case FEKSROUM_REPLY_RESOURCE_ERROR:
    case FEKSROUM_REPLY_NOT_ALLOWED:
    case FEKSROUM_REPLY_NOT_IMPLEMENTED:
    case FEKSROUM_REPLY_INTERNAL_ERROR:
        return 1;
    default:
        return 0;
    }
}

#ifdef __cplusplus
}
#endif

#endif

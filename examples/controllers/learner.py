"""A learning switch on os-ken. It knows at which port each address was seen last: a packet for a known one goes out of
its port, any other out of all. Each pair of known addresses has an entry, until nothing used it for a minute.

    osken-manager --ofp-listen-host 127.0.0.1 --ofp-tcp-listen-port 6635 examples/controllers/learner.py

It tells on standard output, a line each: `learned dpid=D address=A port=P`, and `refused type=T code=C`.
"""
from os_ken.base import app_manager
from os_ken.controller import ofp_event
from os_ken.controller.handler import MAIN_DISPATCHER, set_ev_cls
from os_ken.ofproto import ofproto_v1_0


class Learner(app_manager.OSKenApp):
    OFP_VERSIONS = [ofproto_v1_0.OFP_VERSION]

    def __init__(self, *args, **kwargs):
        super().__init__(*args, **kwargs)
        self.places = {}

    @set_ev_cls(ofp_event.EventOFPPacketIn, MAIN_DISPATCHER)
    def comes_in(self, event):
        message, datapath = event.msg, event.msg.datapath
        parser, numbers = datapath.ofproto_parser, datapath.ofproto
        target, source = message.data[:6], message.data[6:12]
        if self.places.get((datapath.id, source)) != message.in_port:
            self.places[datapath.id, source] = message.in_port
            print(f"learned dpid={datapath.id:016x} address={source.hex(':')} port={message.in_port}", flush=True)
        known = self.places.get((datapath.id, target))
        actions = [parser.OFPActionOutput(numbers.OFPP_FLOOD if known is None else known)]
        if known is not None:
            match = parser.OFPMatch(in_port=message.in_port, dl_src=source, dl_dst=target)
            datapath.send_msg(parser.OFPFlowMod(
                datapath=datapath, match=match, cookie=0, command=numbers.OFPFC_ADD, priority=1, idle_timeout=60,
                buffer_id=numbers.OFP_NO_BUFFER, out_port=numbers.OFPP_NONE, actions=actions))
        datapath.send_msg(parser.OFPPacketOut(
            datapath=datapath, buffer_id=numbers.OFP_NO_BUFFER, in_port=message.in_port, actions=actions,
            data=message.data))

    @set_ev_cls(ofp_event.EventOFPErrorMsg, MAIN_DISPATCHER)
    def is_refused(self, event):
        print(f"refused type={event.msg.type} code={event.msg.code}", flush=True)

"""A firewall on os-ken. It has an entry without actions for each source and target that are named as it starts, and
nothing else: as in `firewall |> learner` these drop their packets, and all others are the right one's affair.

    FIREWALL="10.0.0.1-10.0.0.2 10.0.0.2-10.0.0.1" \\
        osken-manager --ofp-listen-host 127.0.0.1 --ofp-tcp-listen-port 6634 examples/controllers/firewall.py

It tells on standard output, a line each: `features dpid=D` as its switch comes up, and `refused type=T code=C`.
"""
import os

from os_ken.base import app_manager
from os_ken.controller import ofp_event
from os_ken.controller.handler import CONFIG_DISPATCHER, MAIN_DISPATCHER, set_ev_cls
from os_ken.ofproto import ofproto_v1_0

DENIED = [pair.split("-") for pair in os.environ.get("FIREWALL", "").split()]


class Firewall(app_manager.OSKenApp):
    OFP_VERSIONS = [ofproto_v1_0.OFP_VERSION]

    @set_ev_cls(ofp_event.EventOFPSwitchFeatures, CONFIG_DISPATCHER)
    def comes_up(self, event):
        datapath = event.msg.datapath
        parser, numbers = datapath.ofproto_parser, datapath.ofproto
        print(f"features dpid={datapath.id:016x}", flush=True)
        for source, target in DENIED:
            match = parser.OFPMatch(dl_type=0x0800, nw_src=source, nw_dst=target)
            datapath.send_msg(parser.OFPFlowMod(
                datapath=datapath, match=match, cookie=0, command=numbers.OFPFC_ADD, priority=100,
                buffer_id=numbers.OFP_NO_BUFFER, out_port=numbers.OFPP_NONE, actions=[]))

    @set_ev_cls(ofp_event.EventOFPErrorMsg, [CONFIG_DISPATCHER, MAIN_DISPATCHER])
    def is_refused(self, event):
        print(f"refused type={event.msg.type} code={event.msg.code}", flush=True)
